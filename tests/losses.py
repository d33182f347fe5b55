"""Runs scripts in threads again and again while link workers lose and repeat parcels, on one processor and on all, and wants each run
woven and safe.

The runs are those of the tests `losses` of crates/abt_journal_rows, in the program of all tests that `./abt --test` compiles: each call of
such a test makes 16 runs with so many link workers, one for each share of parcels that is lost and each that is served twice. A test that
fails, or doesn't end within two minutes, falls short.

usage: losses.py TESTS [--calls N]      (TESTS: crates/abt/out/abt.tests; N: how often each test is called on one processor, and on all)
"""
import argparse
import os
import subprocess
import sys

# The tests, by how many link workers their runs have, and how many runs one call makes.
TESTS = {
    1: "one_link_worker_loses_and_repeats",
    4: "four_link_workers_lose_and_repeat",
    16: "sixteen_link_workers_lose_and_repeat",
}
RUNS = 16
SECONDS = 120


def falls_short(program, test, processors):
    """How a call of a test falls short on these processors, or ""."""
    try:
        done = subprocess.run(
            [program, test],
            stdin=subprocess.DEVNULL,
            capture_output=True,
            timeout=SECONDS,
            preexec_fn=lambda: os.sched_setaffinity(0, processors),
        )
    except subprocess.TimeoutExpired:
        return f"no end after {SECONDS} seconds"
    return f"status {done.returncode}: {(done.stdout + done.stderr).decode(errors='replace')[-300:]}" if done.returncode else ""


def main():
    reader = argparse.ArgumentParser(description=__doc__, formatter_class=argparse.RawDescriptionHelpFormatter)
    reader.add_argument("tests", metavar="TESTS")
    reader.add_argument("--calls", type=int, default=2)
    words = reader.parse_args()
    everywhere = os.sched_getaffinity(0)
    short = made = 0
    listed = subprocess.run([words.tests, "--list"], capture_output=True, text=True).stdout.split("\n")
    for processors in ({min(everywhere)}, everywhere):
        for workers, name in TESTS.items():
            test = next(it.removesuffix(": test") for it in listed if it.endswith(f"::losses::{name}: test"))
            for _ in range(words.calls):
                made += RUNS
                if told := falls_short(words.tests, test, processors):
                    short += 1
                    print(f"  {workers} link workers on {len(processors)} processors: {told}", flush=True)
    print(f"losses: {made} runs, {short} calls fall short")
    sys.exit(1 if short else 0)


if __name__ == "__main__":
    main()
