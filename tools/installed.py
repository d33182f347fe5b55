#!/usr/bin/env python3
"""Which files a release has, and where below a prefix each goes; and puts them there.

usage: installed.py library BUILD PREFIX     (BUILD: the folder in which `make -C c library` builds)

`./abt --install` puts the program's files and the documents, `make -C c install` the library's. A release (tools/release) has all.
"""
import shutil
import sys
from pathlib import Path

ROOT = Path(__file__).resolve().parent.parent
COMPLETIONS = {
    "abt.bash": "share/bash-completion/completions/abt",
    "_abt": "share/zsh/site-functions/_abt",
    "abt.fish": "share/fish/vendor_completions.d/abt.fish",
}
# What is run, among the files.
PROGRAMS = {"bin/abt"}
CODE = (".py", ".rs", ".toml", ".typed")


def pages(folder):
    return {f"share/man/man{page.suffix[1:]}/{page.name}": page for page in sorted((ROOT / folder).glob("*.[1-9]"))}


def tree(folder, place):
    """The sources below a folder of the repository, without what tools leave there."""
    found = sorted(file for file in (ROOT / folder).rglob("*") if file.suffix in CODE and not {"target", "tests", "build"} & {*file.parts})
    return {f"{place}/{file.relative_to(ROOT / folder)}": file for file in found}


def program_files(program):
    """The program's files, by their places."""
    completions = {place: ROOT / "completions" / name for name, place in COMPLETIONS.items()}
    return {"bin/abt": Path(program), **pages("man"), **{place: file for place, file in completions.items() if file.is_file()}}


def library_files(build):
    """The library's files, by their places: those that were built, headers, page, and the wrappers as sources."""
    build = Path(build)
    files = {f"lib/{name}": build / name for name in ("libabt.a", "libabt.so.0")}
    files |= {"lib/pkgconfig/abt.pc": build / "abt.pc", "lib/cmake/abt/abtConfig.cmake": ROOT / "c" / "abtConfig.cmake"}
    files |= {"lib/cmake/abt/abtConfigVersion.cmake": build / "abtConfigVersion.cmake"}
    files |= {f"include/{header.name}": header for header in sorted((ROOT / "include").glob("abt*.h*"))}
    return files | pages("c") | tree("wrappers/rust", "share/abt/rust") | tree("wrappers/python", "share/abt/python")


def document_files():
    """README, documents, and the samples and examples that these and the program's help name."""
    found = [ROOT / "README.md", ROOT / "CHANGELOG.md"]
    found += [file for folder in ("docs", "c/examples") for file in sorted((ROOT / folder).iterdir())]
    found += sorted((ROOT / "scenarios").glob("*.toml"))
    return {f"share/doc/abt/{file.relative_to(ROOT)}".replace("/c/examples/", "/examples/"): file for file in found}


def mode_of(place):
    return 0o755 if place in PROGRAMS else 0o644


def put(files, prefix):
    """Puts files below a prefix, and gives where each was put."""
    for place, file in files.items():
        to = Path(prefix) / place
        to.parent.mkdir(parents=True, exist_ok=True)
        shutil.copyfile(file, to)
        to.chmod(mode_of(place))
        yield to


def main(words):
    match words:
        case ["library", build, prefix]:
            for put_there in put(library_files(build), prefix):
                print(put_there)
        case _:
            sys.exit(__doc__.split("\n\n")[1])


if __name__ == "__main__":
    main(sys.argv[1:])
