"""Lists the definitions that a clause rests on, by following names from the clause: what a reader has to believe.

A word of specs/ leads to its definition with the comment above it, a type of the code to its declaration, and a type that contracts see
as a value to its view (`impl Model`). Words of the kit's library lead no further. Lines are counted of what a definition says: not
comments, derives, imports and blank lines, nor a line with nothing but brackets.

docs/READING.md has tables of such definitions. Each stands between a line `<!-- rests on: START.. -->` and a line `<!-- end -->`, where a
START is `CRATE::FUNCTION LABEL` or a word, `CRATE.FILE.WORD`; what a table above has is left out.

usage: reading.py                    compares the tables of docs/READING.md with what the tool finds
       reading.py --write            writes them anew, and keeps what the last column says
       reading.py START              lists what a START rests on, as in: reading.py "abt_world::run headline"
"""
import re
import sys
from collections import defaultdict
from dataclasses import dataclass
from functools import cache
from itertools import zip_longest

from documents import CRATES, ROOT, files, report, text_of
from functions import blanked, closing

NAME = re.compile(r"[A-Za-z_][\w'-]*")
USE = re.compile(r"(?:pub )?use\s+Rattle\.([\w.]+?)(?:\.\{([^}]*)\}|\s+as\s+(\w+))\s*;?")
SAYS_NOTHING = re.compile(r"\s*(--|//|#\[|ghost use |[()\[\]{},;]*$)")
LEADS = ("abbrev", "unfoldable", "data", "record", "pub", "opaque")


@dataclass(frozen=True)
class Word:
    """A definition: its file, its first line with the comment above it, and the line behind its last."""

    file: str
    name: str
    first: int
    last: int

    @property
    def lines(self):
        return sum(not SAYS_NOTHING.match(line) for line in text_of_word(self).split("\n"))


def imports(text):
    """What each imported name of a text stands for: a module of a crate and the name there, or a module alone."""
    found = {}
    for module, names, alias in USE.findall(text):
        if alias:
            found[alias] = (module, None)
        for given, short in re.findall(r"(\S+?)(?:\s+as\s+(\S+?))?\s*(?:,|$)", names):
            found[short or given] = (module, given)
    return found


@cache
def uses_of(file):
    return imports(re.sub(r"//.*|--.*", "", text_of(file)))


@cache
def words_in(file):
    """The definitions of a file of specs/, by name. The fields of a record and the cases of a type are read where it is."""
    lines = text_of(file).split("\n")
    heads = [k for k, line in enumerate(lines) if line.split(" ")[0] in LEADS and not line.startswith(("pub mod", "pub use"))]
    found = {}
    for head, last in zip(heads, [*heads[1:], len(lines)]):
        name = next(it for it in re.split(r"[\s:({]+", lines[head]) if it and it not in LEADS)
        while last > head + 1 and (not lines[last - 1].strip() or lines[last - 1].startswith("--")):
            last -= 1
        found[name] = Word(file, name, beginning(lines, head, "--"), last)
    return found


def beginning(lines, first, above):
    """The first of the lines of these kinds that stand above a line."""
    while first and lines[first - 1].startswith(above):
        first -= 1
    return first


def item_in(file, head, name, above=()):
    """The item of the code that begins so, with the lines of these kinds that stand above it; None if there is none."""
    text = text_of(file)
    at = re.search(head, text, re.M)
    if not at:
        return None
    first = beginning(text.split("\n"), text.count("\n", 0, at.start()), above)
    opens, ends = text.find("{", at.start()), text.find(";", at.start())
    stop = closing(blanked(text), opens) if opens >= 0 and (ends < 0 or opens < ends) else ends
    return Word(file, name, first, text.count("\n", 0, stop) + 1)


def head_of_type(name):
    return rf"^pub(?:\([^)]*\))? (?:struct|enum) {name}\b"


def types(file, name):
    """A type as contracts see it: by its `impl Model` if it has one, else by its declaration."""
    model = item_in(file, rf"^impl(?:<[^>]*>)? Model for {name}\b[^{{]*{{", f"{name} (model)")
    seen = model or item_in(file, head_of_type(name), name, ("///", "#["))
    return [seen] if seen else []


def module_file(module):
    """The file of a module: `abt_x.specs.Y` or `abt_x.specs.declared.a.b.Type`; with the type's name for the second."""
    crate, *parts = module.split(".")
    if parts[:2] != ["specs", "declared"]:
        places, name = [f"crates/{crate}/specs/{'/'.join(parts[1:])}.antt"], None
    else:
        at = next((k for k, part in enumerate(parts) if k > 1 and part[0].isupper()), None)
        name, stem = at and parts[at], "/".join(parts[2:at])
        places = [f"crates/{crate}/src/{stem}.rt", f"crates/{crate}/src/{stem}/mod.rt", f"crates/{crate}/src/lib.rt"] if at else []
    return next(((place, name) for place in places if (ROOT / place).is_file()), (None, None))


def rust_uses(file):
    """The types of other files that a file of the code names, with the crates that declare them."""
    found = {}
    for path, names, single in re.findall(r"^(?:pub )?use ([\w:]+?)::(?:\{([^}]*)\}|(\w+));", text_of(file), re.M):
        home = file.split("/")[1] if path.startswith("crate") else path.split("::")[0]
        found |= {name: home for name in re.findall(r"\w+", names or single)}
    return found


@cache
def declared_in(crate, name):
    """The file of a crate that declares a type."""
    return next((file for file in files(f"crates/{crate}/src/**/*.rt") if re.search(head_of_type(name), text_of(file), re.M)), None)


def text_of_word(word):
    return "\n".join(text_of(word.file).split("\n")[word.first : word.last])


def next_words(word):
    """The definitions that a definition names."""
    text = text_of_word(word)
    return of_code(word, text) if word.file.endswith(".rt") else resolved(word.file, re.sub(r"--.*", "", text))


def of_code(word, text):
    """The types that a declaration has in its fields, or what a view names."""
    if word.name.endswith("(model)"):
        value = re.search(r"ghost Value = \{(.*?)\};", text, re.S)
        return resolved(word.file, value[1] if value else "", imports(re.sub(r"^\s*ghost use", "use", text, flags=re.M)))
    names, others = set(NAME.findall(re.sub(r"//.*", "", text))) - {word.name}, rust_uses(word.file)
    homes = {name: others.get(name, word.file.split("/")[1]) for name in names}
    declared = {name: declared_in(home, name) for name, home in homes.items() if home in CRATES}
    return [found for name, file in declared.items() if file for found in types(file, name)]


def resolved(file, text, more_uses=None):
    """The definitions that the names of a text stand for, in this file."""
    uses, found = {**uses_of(file), **(more_uses or {})}, []
    for qualifier, name in re.findall(r"(?:\b([a-z]\w*)\.)?([A-Za-z_][\w'-]*)", text):
        is_of_module = qualifier in uses and uses[qualifier][1] is None
        target = (uses[qualifier][0], name) if is_of_module else uses.get(name)
        if target:
            place, type_name = module_file(target[0])
            if place and type_name:
                found += types(place, type_name)
            elif place and target[1] in words_in(place):
                found.append(words_in(place)[target[1]])
        elif file.endswith(".antt") and name in words_in(file):
            found.append(words_in(file)[name])
    return found


def clause_of(crate, function, label):
    """The text of a function's clause with this label, and the file of the function."""
    for file in files(f"crates/{crate}/src/**/*.rt"):
        text = text_of(file)
        at = re.search(rf"\bfn {function}\b", text)
        if at:
            stop = re.search(r"^ *\{", text[at.start() :], re.M)
            header = text[at.start() : at.start() + (stop.start() if stop else 0)]
            for clause in re.finditer(r"(requires|ensures)\s*(\w*)\s*\{", header):
                if (clause[2] or clause[1]) == label:
                    return file, header[clause.end() : closing(header, clause.end() - 1)]
            sys.exit(f"reading: {crate}::{function} has no clause {label}")
    sys.exit(f"reading: there is no {crate}::{function}")


def closure(starts):
    seen, left = set(), list(starts)
    while left:
        word = left.pop()
        left += next_words(word) if word not in seen else []
        seen.add(word)
    return seen


def begins(start):
    """The definitions that a START names."""
    clause = re.fullmatch(r"(\w+)::(\w+) (\w+)", start)
    if clause:
        return resolved(*clause_of(*clause.groups()))
    crate, file, name = start.split(".")
    return [words_in(f"crates/{crate}/specs/{file}.antt")[name]]


def rests_on(starts):
    return closure([word for start in starts for word in begins(start)])


def by_file(words):
    found = defaultdict(list)
    for word in sorted(words, key=lambda it: (it.file, it.first)):
        found[word.file].append(word)
    return found


WIDTH = 140
ROW = re.compile(r"\| `([^`]+)` \| (\d+) \| (.*?) \| (.*) \|")


def order_of(file):
    """Crates stand in the order of crates.txt, lowest first; in a crate the code's types come before its words."""
    return [*CRATES].index(file.split("/")[1]), "/specs/" in file, file


def in_lines(names, first, others):
    """The names in lines that are no longer than there is room: in the first, and in the others."""
    lines = [""]
    for name in names:
        longer = f"{lines[-1]}, {name}" if lines[-1] else name
        if lines[-1] and len(longer) > (others if lines[1:] else first):
            lines.append(name)
        else:
            lines[-1] = longer
    return lines


def table(words, said):
    """The rows of a table. What has no room in a file's row goes on in the next, whose other columns are empty."""
    rows = ["| file | lines | definitions | what they say |", "|---|---|---|---|"]
    held = by_file(words)
    for file in sorted(held, key=order_of):
        head, says = f"| `{file}` | {sum(word.lines for word in held[file])} |", said.get(file, "")
        names = [f"`{word.name}`" for word in held[file]]
        first, *more = in_lines(names, WIDTH - len(head) - len(says) - 6, WIDTH - len("| | |  | |"))
        rows.append(f"{head} {first} | {says} |")
        rows += [f"| | | {line} | |" for line in more]
    return rows


def rewritten(text):
    """The document with each table as it has to be, and the lines that each has."""
    seen, out, counts = set(), [], []
    parts = re.split(r"(<!-- rests on: .*? -->\n.*?<!-- end -->)", text, flags=re.S)
    for part in parts:
        head = re.match(r"<!-- rests on: (.*?) -->", part)
        if head:
            words = [word for word in rests_on(head[1].split("; ")) if word not in seen]
            seen |= set(words)
            counts.append(sum(word.lines for word in words))
            said = {row[1]: row[4] for row in map(ROW.fullmatch, part.split("\n")) if row}
            part = "\n".join([head[0], *table(words, said), "<!-- end -->"])
        out.append(part)
    return "".join(out), counts


def listed(start):
    words = rests_on([start])
    for file, held in by_file(words).items():
        print(f"{sum(word.lines for word in held):5} {file}: {', '.join(word.name for word in held)}")
    print(f"{sum(word.lines for word in words):5} lines, {len(words)} definitions")


def main(*words):
    if words and words != ("--write",):
        return listed(*words)
    document = ROOT / "docs" / "READING.md"
    text = document.read_text()
    wanted, counts = rewritten(text)
    if words:
        document.write_text(wanted)
        text = wanted
    lines = zip_longest(text.split("\n"), wanted.split("\n"), fillvalue="")
    differ = [f"`{have[:100]}` for `{want[:100]}`" for have, want in lines if have != want]
    told = [f"docs/READING.md has {it}; .ci/documents/reading.py --write mends it" for it in differ[:1]]
    return report(f"{len(counts)} tables, of {', '.join(map(str, counts))} lines", told)


main(*sys.argv[1:])
