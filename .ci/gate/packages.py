"""Tests a release's packages: makes them twice, unpacks one into an empty root, and uses what stands there in each language.

The packages are the same octets each time; `make -C c install` and `./abt --install` put the same files; the receipt has the digest of
each. The examples are built and run from the unpacked archive in C, by CMake, in C++, Rust and Python, without the command rt on PATH,
and misuse is refused. What this machine has no tool for is said and left out.

usage: packages.py [PROGRAM LIBRARY]     (without them, those of crates/abt/out and crates/abt_c/out)
"""
import hashlib
import os
import re
import shutil
import subprocess
import sys
from pathlib import Path

ROOT = Path(__file__).resolve().parents[2]
sys.path.insert(0, str(ROOT / "tools"))
import installed  # noqa: E402
import packages as release  # noqa: E402
import processes  # noqa: E402
from use_packages import Uses  # noqa: E402

PROVED = (ROOT / "crates" / "abt" / "out" / "abt", ROOT / "crates" / "abt_c" / "out" / "libabt_c.a")
ABOUT, MOMENT = ["commit none", "gate none: a test"], 1_000_000_000


def fail(what):
    sys.exit(f"packages: {what}")


def same_twice(program, library, room):
    """Makes the packages twice, and gives the first ones."""
    both = []
    for name in ("first", "second"):
        (room / name).mkdir()
        both.append(release.make(program, library, ABOUT, MOMENT, room / name, processes.room(room)))
    for one, other in zip(*both):
        if one.read_bytes() != other.read_bytes():
            fail(f"{one.name} isn't the same octets each time")
    return both[0]


def files_below(folder):
    files = (file for file in folder.rglob("*") if file.is_file())
    return {str(file.relative_to(folder)): (file.read_bytes(), file.stat().st_mode & 0o777) for file in files}


def unpack(archive, room):
    """Unpacks the archive into an empty root, by tar, and checks it against its receipt."""
    root = room / "unpacked"
    root.mkdir()
    subprocess.run(["tar", "-xzf", archive, "-C", root], check=True)
    root = root / archive.name.removesuffix(".tar.gz")
    found = files_below(root)
    told = found.pop("share/doc/abt/RECEIPT")[0].decode()
    if not told.startswith("\n".join([f"abt {release.version()}", *ABOUT]) + "\n"):
        fail(f"the receipt begins otherwise: {told[:200]}")
    digests = {place: digest for digest, place in re.findall(r"^([0-9a-f]{64})  (.*)$", told, re.M)}
    if digests != {place: hashlib.sha256(octets).hexdigest() for place, (octets, _) in found.items()}:
        fail("the receipt hasn't just the files of the archive with their digests")
    return root


def same_installed(program, library, root, room):
    """What is installed from a checkout is what the archive has, but for the documents."""
    prefix = room / "prefix"
    list(installed.put(installed.program_files(program), prefix))
    words = ["make", "-s", "-C", ROOT / "c", "install", f"PREFIX={prefix}", f"BUILD={room / 'build'}", f"ABT_LIBRARY={library}"]
    subprocess.run(words, check=True, stdout=subprocess.DEVNULL)
    found, wanted = files_below(prefix), files_below(root)
    wanted = {place: it for place, it in wanted.items() if not place.startswith("share/doc/")}
    if found != wanted:
        fail(f"installed is other than packed: {sorted(set(found) ^ set(wanted)) or [it for it in found if found[it] != wanted[it]]}")


def same_as_deb(deb, root, room):
    subprocess.run(["dpkg-deb", "-x", deb, room / "debian"], check=True)
    if files_below(room / "debian" / "usr") != files_below(root):
        fail("the Debian package has other files than the archive")


def check_library(root):
    """The shared library has the calls of the header, and needs no other library."""
    library = root / "lib" / "libabt.so.0"
    told = [subprocess.run([*it, library], check=True, capture_output=True, text=True).stdout for it in (["nm", "-D"], ["readelf", "-d"])]
    calls = set(re.findall(r"^(?!static)(?:const )?\w+ \*?(abt_\w+)\(", (root / "include" / "abt.h").read_text(), re.M))
    if differ := calls ^ {*re.findall(r" T (\w+)", told[0])}:
        fail(f"the shared library and the header differ in {sorted(differ)}")
    if "NEEDED" in told[1] and not os.environ.get("LIBS"):
        fail("the shared library needs another one")


def path_without_kit(room):
    """A PATH on which all is but the command rt: where that stands, the other commands beside it get names of their own."""
    folders = list(map(Path, os.environ["PATH"].split(":")))
    for number, folder in enumerate(folders):
        if (folder / "rt").exists():
            folders[number] = room / f"path{number}"
            folders[number].mkdir()
            for file in folder.iterdir():
                if file.name != "rt":
                    (folders[number] / file.name).symlink_to(file)
    return ":".join(map(str, folders))


def main():
    program, library = (Path(it).absolute() for it in sys.argv[1:] or PROVED)
    if not shutil.which("cc") or not shutil.which("make"):
        print("packages: no cc or no make here, so no package was made")
        return
    if not sys.argv[1:] and not program.is_file():
        print("packages: no proved program here, so no package was made")
        return
    if missing := [file for file in (program, library) if not file.is_file()]:
        fail(f"there is no {missing[0]}")
    processes.end_on_signals("packages")
    room = processes.room(None, "packages-")
    try:
        made = same_twice(program, library, room)
        root = unpack(made[0], room)
        same_installed(program, library, root, room)
        check_library(root)
        if len(made) > 1:
            same_as_deb(made[1], root, room)
        tried, left_out = Uses(root, processes.room(room), path_without_kit(room), release.version()).try_all()
        left_out += ["a Debian package"] * (len(made) == 1)
        print(f"packages: {', '.join(file.name for file in made)} are the same octets each time; used in {', '.join(tried)}")
        if left_out:
            print(f"packages: no tool here for {', '.join(left_out)}")
    finally:
        processes.clear_rooms()


if __name__ == "__main__":
    main()
