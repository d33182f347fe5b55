"""A release's packages: an archive with all its files, and a Debian package; octet for octet the same from the same files."""
import gzip
import hashlib
import io
import os
import re
import shutil
import subprocess
import tarfile
from pathlib import Path

import installed

ROOT = Path(__file__).resolve().parent.parent
# What the Debian package says of itself.
CONTROL = ROOT / "tools" / "control.txt"


def version():
    return re.search(r'^#define ABT_VERSION "(.*)"$', (ROOT / "include" / "abt.h").read_text(), re.M)[1]


def build_library(library, build):
    """Has the Makefile build the library's files of a proved archive into the folder `build`."""
    words = ["make", "-s", "-C", ROOT / "c", "library", f"BUILD={build}", f"ABT_LIBRARY={library}"]
    subprocess.run(words, check=True, stdout=subprocess.DEVNULL)


def receipt(files, about):
    """What the release was made of, and the SHA-256 of each of its files; `sha256sum -c` reads the latter."""
    sums = [f"{hashlib.sha256(Path(file).read_bytes()).hexdigest()}  {place}" for place, file in sorted(files.items())]
    return "\n".join([f"abt {version()}", *about, "", *sums]) + "\n"


def stage(program, library, about, room):
    """Puts all files of a release below room/root, the receipt too, and gives that folder."""
    build_library(library, room / "build")
    files = installed.program_files(program) | installed.library_files(room / "build") | installed.document_files()
    root = room / "root"
    list(installed.put(files, root))
    (root / "share" / "doc" / "abt" / "RECEIPT").write_text(receipt(files, about))
    return root


def write_archive(root, name, moment, to):
    """Writes what stands below `root` as `to`: in order of names, of nobody, all of one moment."""
    octets = io.BytesIO()
    with tarfile.open(fileobj=octets, mode="w", format=tarfile.USTAR_FORMAT) as tar:
        for file in sorted(it for it in root.rglob("*") if it.is_file()):
            place = str(file.relative_to(root))
            entry = tarfile.TarInfo(f"{name}/{place}")
            entry.size, entry.mtime, entry.mode = file.stat().st_size, moment, installed.mode_of(place)
            with open(file, "rb") as content:
                tar.addfile(entry, content)
    with open(to, "wb") as file, gzip.GzipFile(filename="", mode="wb", fileobj=file, mtime=moment) as packed:
        packed.write(octets.getvalue())


def write_deb(root, moment, to, room):
    """Writes what stands below `root` as a Debian package, with /usr as its prefix."""
    tree = room / "deb"
    shutil.copytree(root, tree / "usr")
    (tree / "DEBIAN").mkdir()
    (tree / "DEBIAN" / "control").write_text(CONTROL.read_text().format(version=version()))
    for file in [tree, *tree.rglob("*")]:
        file.chmod(0o755 if file.is_dir() else installed.mode_of(str(file.relative_to(tree / "usr"))) if "usr" in file.parts else 0o644)
        os.utime(file, (moment, moment))
    environment = {**os.environ, "SOURCE_DATE_EPOCH": str(moment)}
    words = ["dpkg-deb", "--root-owner-group", "--threads-max=1", "-Zgzip", "--build", tree, to]
    subprocess.run(words, check=True, env=environment, stdout=subprocess.DEVNULL)


def make(program, library, about, moment, to, room):
    """Makes the packages of a proved program and a proved archive in the folder `to`, and gives them. Without dpkg-deb there is no Debian
    package."""
    root = stage(program, library, about, room)
    name = f"abt-{version()}-x86_64-linux"
    made = [to / f"{name}.tar.gz"]
    write_archive(root, name, moment, made[0])
    if shutil.which("dpkg-deb"):
        made.append(to / f"abt_{version()}_amd64.deb")
        write_deb(root, moment, made[1], room)
    return made
