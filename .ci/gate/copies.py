"""Copies of functions, so that many edits, also of one function, share a check.

A copy stands right behind its function, has a name of its own, and the function's clauses and hand-written proofs. An edit is made in a copy,
and the function stays as it is. Of a function with hand-written proofs one more copy, with no edit, shows that these hold of a copy too. A
function of a trait's impl or of a cycle of calls can't be copied.
"""
import re
from collections import defaultdict
from dataclasses import dataclass
from pathlib import Path

from functions import functions_of

IMPL = re.compile(r"(?:unsafe )?impl\b")


@dataclass(frozen=True)
class Home:
    """Where a function that can be copied stands: its file, its place among the functions there, its path in the crate, and the folder of its
    hand-written proofs."""

    file: str
    place: int
    path: tuple
    proofs: str

    @property
    def name(self):
        return self.path[-1]


def home_of(crate, file, text, place):
    """The home of a function, or None where it can't be copied."""
    function, lines = functions_of(text)[place], text.split("\n")
    line = next(line for line in lines[function.first - 1 :] if re.search(rf"\bfn\s+{function.name}\b", line))
    block = block_of(lines, function.first - 1) if line.startswith(" ") else ""
    if function.is_alone or function.name == "main" or block is None:
        return None
    modules = Path(file).relative_to("src").with_suffix("").parts
    modules = () if modules in (("lib",), ("main",)) else modules
    folder = Path("proofs", *modules)
    if block:
        found = [it for it in Path(crate.folder, folder).glob(f"{block}*/{function.name}") if it.is_dir()]
        if len(found) > 1:
            return None
        folder = found[0].relative_to(crate.folder) if found else folder / block / function.name
    else:
        folder = folder / function.name
    return Home(file, place, (*modules, *([block] if block else []), function.name), str(folder))


def block_of(lines, at):
    """The type whose own impl block a line stands in, or None where it stands in a block of another kind."""
    while at > 0 and (not lines[at] or lines[at][0] in " }#/)w{"):
        at -= 1
    header = lines[at]
    for line in lines[at + 1 :]:
        if "{" in header:
            break
        header += " " + line.strip()
    if not IMPL.match(header) or re.search(r"\bfor\b", header.split("{")[0]):
        return None
    words = re.match(r"(?:unsafe )?impl\s*", header).end()
    return re.match(r"\w+", without_parameters(header[words:]).strip())[0]


def without_parameters(text):
    """The text behind a list of parameters in angle brackets, if it begins with one."""
    if not text.startswith("<"):
        return text
    depth = 0
    for at, letter in enumerate(text):
        depth += (letter == "<") - (letter == ">" and text[at - 1] != "-")
        if depth == 0:
            return text[at + 1 :]
    return text


class Copies:
    """The copies of a crate's functions for one check."""

    def __init__(self, crate):
        self.crate = crate
        self.texts = {}  # the files as they are
        self.made = defaultdict(list)  # of each home, its copies: name, lines, and texts of proofs that differ
        self.bare = {}  # of each home with proofs, the name of the copy in which nothing is changed
        self.count = 0

    def text(self, file):
        if file not in self.texts:
            self.texts[file] = Path(self.crate.folder, file).read_text()
        return self.texts[file]

    def add(self, home, hunks=(), proofs=None):
        """Adds a copy with some lines changed, and gives its name. The first copy of a function with proofs is one with nothing changed."""
        if not self.made[home] and Path(self.crate.folder, home.proofs).is_dir():
            self.made[home].append(self.copy(home, (), {}))
            self.bare[home] = self.made[home][0][0]
        self.made[home].append(self.copy(home, hunks, proofs or {}))
        return self.made[home][-1][0]

    def copy(self, home, hunks, proofs):
        self.count += 1
        name, text = f"{home.name}_edit_{self.count}", self.text(home.file)
        function, lines = functions_of(text)[home.place], text.split("\n")
        own = lines[function.first - 1 : function.last]
        for first, last, new in sorted(hunks, reverse=True, key=lambda hunk: hunk[:2]):
            own[first - function.first + 1 : last - function.first + 1] = new
        return name, re.sub(rf"\bfn(\s+){home.name}\b", rf"fn\g<1>{name}", "\n".join(own), count=1), proofs

    def files(self):
        """The files of the crate that differ with these copies, and those that are new, with their texts."""
        found = {}
        by_file = defaultdict(list)
        for home in self.made:
            by_file[home.file].append(home)
        for file, homes in by_file.items():
            functions, lines = functions_of(self.text(file)), self.text(file).split("\n")
            for home in sorted(homes, key=lambda it: -it.place):
                behind = functions[home.place].last
                lines[behind:behind] = [line for _, text, _ in self.made[home] for line in ("", *text.split("\n"))]
            found[file] = "\n".join(lines)
        for home, copies in self.made.items():
            for name, _, changed in copies:
                found |= self.proofs(home, name, changed)
        return found

    def proofs(self, home, name, changed):
        """The hand-written proofs of a copy: those of the function, about the copy."""
        folder = Path(self.crate.folder, home.proofs)
        path = re.escape(f"{home.proofs.removeprefix('proofs/').removesuffix(home.name).replace('/', '.')}")
        cited = re.compile(rf"(\bRattle\.{self.crate.name}\.(?:proofs|specs\.contracts)\.{path}){home.name}(?=\.|\s)")
        found = {}
        for file in sorted(folder.rglob("*.antt")) if folder.is_dir() else ():
            old = str(file.relative_to(self.crate.folder))
            text = changed.get(old, file.read_text())
            new = Path(home.proofs).parent / name / file.relative_to(folder)
            found[str(new)] = cited.sub(rf"\g<1>{name}", text)
        return found

    def paths(self):
        """The paths of all copies in the crate."""
        return ["::".join((*home.path[:-1], name)) for home, copies in self.made.items() for name, _, _ in copies]
