"""Applies each crates/NAME/must-not-compile/*.edit to a copy, and wants just the compiler's error that it names.

An edit is a line `error: NAME`, a line `file: PATH` and pairs of lines `old: TEXT` and `new: TEXT`; each TEXT stands in the file once. In
TEXT `\\n` is a line's end. Nothing is proved: the libraries below must be built, as `rt lib` and `rt ci` leave them in crates/*/out.

usage: must_not_compile.py [NAME..]
"""
import re
import sys
from concurrent.futures import ThreadPoolExecutor
from pathlib import Path

sys.path.insert(0, str(Path(__file__).resolve().parent))
from edit import rt  # noqa: E402

AT_ONCE = 2
# A check of no function reads the whole crate.
NO_FUNCTION = ["--jobs", "1", "--only="]
READ = re.compile(r"only=0 proved=0$", re.M)


def verdict(crate, path):
    """What is wrong with an edit, or None where the compiler refuses it as it says."""
    said = [(word, text.replace("\\n", "\n")) for word, text in re.findall(r"^(file|error|old|new): ?(.*)$", path.read_text(), re.M)]
    named = dict(said)
    if {*named} != {"file", "error", "old", "new"}:
        return "it lacks a line"
    text = Path(crate.folder, named["file"]).read_text()
    for old, new in zip(*([text for word, text in said if word == kind] for kind in ("old", "new"))):
        if text.count(old) != 1:
            return f"`{old}` stands {text.count(old)} times in {named['file']}"
        text = text.replace(old, new)
    ran = rt.checked(crate, {named["file"]: text}, NO_FUNCTION, None)
    errors = set(re.findall(r"error\[([\w-]+)\]", ran.stdout))
    if not errors:
        return "it compiles" if READ.search(ran.stdout) else ran.stdout[-300:]
    others = sorted(errors - {named["error"]})
    return f"the compiler says {', '.join(others)}" if others else None


def main():
    top = Path(__file__).resolve().parents[2]
    wanted = set(sys.argv[1:])
    rt.rtlib.guarded()
    crates = [crate for crate in rt.rtlib.crates_below(str(top)) if not wanted or crate.name in wanted]
    edits = [(crate, path) for crate in crates for path in sorted(Path(crate.folder).glob("must-not-compile/*.edit"))]
    with ThreadPoolExecutor(AT_ONCE) as pool:
        faults = list(pool.map(verdict, *zip(*edits))) if edits else []
    for (crate, path), fault in zip(edits, faults):
        print(f"must-not-compile {crate.name}/{path.name}: " + (f"NOT refused as it must be: {fault}" if fault else "refused as it says"))
    failed = sum(map(bool, faults))
    print(f"must-not-compile: {len(edits) - failed} refused, {failed} not")
    sys.exit(1 if failed else 0)


main()
