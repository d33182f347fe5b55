"""Runs the examples in the package's documentation.

usage: documented.py
"""
import doctest
import importlib
import pkgutil
import sys

import abt

modules = ["abt", *(f"abt.{found.name}" for found in pkgutil.iter_modules(abt.__path__))]
results = [doctest.testmod(importlib.import_module(name)) for name in modules]
print(f"documented: {sum(it.attempted for it in results)} examples, {sum(it.failed for it in results)} failed")
sys.exit(any(it.failed for it in results))
