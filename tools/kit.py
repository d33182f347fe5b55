"""The Rattle kit's own command `rt`, as a module."""
import functools
import importlib.machinery
import importlib.util
import shutil
import subprocess
import sys
from pathlib import Path

NO_KIT = 70


def fail(why):
    print(f"abt: {why}", file=sys.stderr)
    raise SystemExit(NO_KIT)


def file_of_kit():
    """The file of the kit's rt. What PATH names may be a script of the user's around it, so the kit is found by the page that `rt doc`
    names, which lies in its folder."""
    place = shutil.which("rt")
    if not place:
        fail("the command rt of the Rattle kit isn't on PATH")
    try:
        told = subprocess.run([place, "doc"], stdin=subprocess.DEVNULL, capture_output=True, text=True, timeout=60).stdout
    except (OSError, UnicodeDecodeError, subprocess.TimeoutExpired) as error:
        fail(f"{place} doesn't answer `rt doc`: {error}")
    page = Path(told.strip().split("\n")[-1])
    file = page.parent / "bin" / "rt"
    if not page.is_absolute() or not file.is_file():
        fail(f"{place} isn't the command of a Rattle kit: `rt doc` has to name a page in the kit's folder, and names {str(page)!r}")
    return file


@functools.cache
def rt():
    """The kit's rt. Without a kit this ends the tool with status 70, and a line that says why."""
    loader = importlib.machinery.SourceFileLoader("rt", str(file_of_kit().resolve()))
    spec = importlib.util.spec_from_loader("rt", loader)
    module = importlib.util.module_from_spec(spec)
    loader.exec_module(module)
    return module
