#!/usr/bin/env python3
"""Has the kit work on one crate whose libraries stand, also while it works on others of this checkout.

usage: proof.py VERB WORD..      (as rt takes them, in the crate's folder)

The kit's own `rt` locks each crate below the one that it works on, so one crate of a checkout is proved at a time. Here a crate's own
folder is locked, and those below are shared: nobody builds them anew meanwhile. A library's sum is taken once for each path to it by the
kit, and here once. If the kit's `rt` is other than expected, it is run as it is.
"""
import fcntl
import os
import sys

import kit


def lock(crates):
    """Locks the crate in the current folder, and shares the others with whoever reads them too, until what this gives is closed."""
    own, held = os.path.realpath(os.getcwd()), []
    for folder in sorted({os.path.realpath(crate.folder) for crate in crates}):
        held.append(os.open(folder, os.O_RDONLY))
        fcntl.flock(held[-1], fcntl.LOCK_EX if folder == own else fcntl.LOCK_SH)
    return held


def summed_once(stamp):
    """The same sum of a crate and its libraries, each of which is read once in a call."""
    known, depth = {}, 0

    def of(crate):
        nonlocal depth
        if not depth:
            known.clear()
        if crate.folder not in known:
            depth += 1
            try:
                known[crate.folder] = stamp(crate)
            finally:
                depth -= 1
        return known[crate.folder]

    return of


def rt_with_shared_locks():
    """The kit's rt, or None if it isn't the program in Python that this changes."""
    try:
        rt = kit.rt()
        rt.rtlib.Crate.stamp = summed_once(rt.rtlib.Crate.stamp)
        rt.rtlib.lock = lock
        return rt if callable(rt.main) else None
    except (SystemExit, SyntaxError, UnicodeDecodeError, AttributeError):
        return None


def main():
    rt = rt_with_shared_locks()
    if rt is None:
        os.execvp("rt", ["rt", *sys.argv[1:]])
    sys.exit(rt.main(sys.argv[1:]))


if __name__ == "__main__":
    main()
