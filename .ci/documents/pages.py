"""Writes the manual pages and the shell completions from the program's help and from docs/FORMATS.md, or compares them.

The help is that of man/help, which `tests/help_texts.py` compares with the program. So a page or a completion that lacks a command or an
option is told here.

usage: pages.py            compares
       pages.py --write    writes man/abt.1, man/abt_formats.5 and completions/ anew
"""
import re
import sys
from itertools import groupby
from typing import NamedTuple

from documents import ROOT, report, text_of
from roff import escaped, inline, page_of

HELP = ROOT / "man" / "help"
# What the help calls a file: as the value of an option, and as an argument.
VALUES, ARGUMENTS = ("OUT", "FILE"), ("FILE", "NET")
# The table of statuses in docs/FORMATS.md, and one row of it.
STATUSES = re.compile(r"^\| exit status \|.*\n\|---.*\n((?:\|.*\n)+)", re.M)
STATUS = re.compile(r"\| (\d+) \| ([^|]+) \| ([^|]+) \|")
# The status that the script ./abt alone has.
OF_THE_SCRIPT = "70"
# What the help calls a first argument that is one of a few words, and these.
WORDS = {"<MESSAGE>": ("request", "yes", "no")}
VERSION = re.search(r"^## (\d+\.\d+\.\d+)", text_of("CHANGELOG.md"), re.M)[1]


class Status(NamedTuple):
    number: str
    words: str  # what it is of
    more: str

    def told(self):
        return f"{self.number}: {self.words}."


class Option(NamedTuple):
    flags: tuple  # as ("-h", "--help")
    value: str  # the name of its value, or nothing
    help: str


class Command(NamedTuple):
    name: str
    about: str
    usage: str
    arguments: tuple  # pairs of a name, as [FILE], and its help
    options: tuple
    after: str  # what the help tells behind the options

    def takes_a_file(self):
        return any(file in name for name, _ in self.arguments for file in ARGUMENTS)

    def flags(self):
        return [flag for option in self.options for flag in option.flags]

    def words(self):
        """The words that its first argument can be, if these are few."""
        return next((WORDS.get(name, ()) for name, _ in self.arguments), ())


def statuses():
    """The program's exit statuses, which docs/FORMATS.md has in a table, and nothing else says otherwise."""
    return [Status(*row) for row in STATUS.findall(STATUSES.search(text_of("docs/FORMATS.md"))[1])]


def faults_of_statuses():
    """What the help or README.md say of statuses, and the table doesn't."""
    them = statuses()
    told = {file: " ".join(file.read_text().split()) for file in [ROOT / "README.md", *sorted(HELP.iterdir())]}
    for file, text in told.items():
        is_help = file.parent == HELP
        want = " ".join(it.told() for it in them if not (is_help and it.number == OF_THE_SCRIPT))
        found = re.search(r"[Ss]tatus (0: done\..*)", text)
        if (found or not is_help) and not (found and found[1].startswith(want)):
            yield f"{file.relative_to(ROOT)} doesn't tell the statuses as docs/FORMATS.md does: {want}"


def section(text, title):
    """The lines of a help text below a title."""
    found = re.search(rf"^{title}:\n((?:  .*\n?)+)", text, re.M)
    return found[1].rstrip("\n").split("\n") if found else []


def command_of(name, text):
    """What a help text says of its command."""
    arguments = tuple(re.match(r"  (\S+)  +(.*)", line).groups() for line in section(text, "Arguments"))
    options = []
    for line in section(text, "Options"):
        flags, value, told = re.match(r"  +((?:-\w, )?--[\w-]+)(?: <([^>]+)>)?  +(.*)", line).groups()
        options.append(Option(tuple(flags.split(", ")), value or "", told))
    after = text.split("\n\nOptions:\n", 1)[-1].split("\n\n", 1)[1:]
    usage = re.search(r"^Usage: (.*)$", text, re.M)[1]
    return Command(name, text.split("\n", 1)[0], usage, arguments, tuple(options), after[0].rstrip("\n") if after else "")


def commands():
    """The program itself, and its commands in the order of its help."""
    whole = (HELP / "abt").read_text()
    names = [re.match(r"  (\S+)", line)[1] for line in section(whole, "Commands")]
    return command_of("abt", whole), [command_of(name, (HELP / f"abt-{name}").read_text()) for name in names]


def described(command):
    """The arguments and options of a command, as roff."""
    for name, told in command.arguments:
        yield f".TP\n.I {escaped(name)}\n{escaped(told)}"
    for option in command.options:
        value = f" \\fI{escaped(option.value)}\\fR" if option.value else ""
        yield f".TP\n\\fB{escaped(', '.join(option.flags))}\\fR{value}\n{escaped(option.help)}"


def told_after(text):
    """What a help text tells behind its options, as roff: examples as they stand, and the rest as text."""
    for place, (is_example, lines) in enumerate(groupby(text.split("\n"), lambda line: line.startswith("  "))):
        told = [escaped(line.removeprefix("  ")) or ".PP" for line in lines]
        if is_example:
            yield "\n".join([".nf\n.RS 4", *told, ".RE\n.fi"])
        else:
            yield ("" if place else ".PP\n") + "\n.br\n".join(told)


# Where an installed program has the documents and samples that its help names.
FILES = "`docs/` and `scenarios/` are folders of `share/doc/abt` below the folder in which `bin/abt` was installed."


def manual(program, them):
    """The page abt(1)."""
    parts = [
        f'.\\" Written by .ci/documents/pages.py from the help of the program.\n.TH ABT 1 "" "abt {VERSION}" "User Commands"',
        f".SH NAME\nabt \\- {escaped(program.about[0].lower() + program.about[1:])}",
        ".SH SYNOPSIS\n" + "\n.br\n".join(f"\\fB{escaped(it.usage)}\\fR" for it in them),
        ".SH OPTIONS",
        *described(program),
        ".SH COMMANDS",
    ]
    for it in them:
        parts += [f".SS abt {it.name}", escaped(it.about) + ".", *described(it)]
        if it.after:
            parts += told_after(it.after)
    told = lambda it: inline(f"{it.words[0].upper()}{it.words[1:]}; {it.more}.")
    parts += [".SH EXIT STATUS", *(f".TP\n\\fB{it.number}\\fR\n{told(it)}" for it in statuses())]
    parts += [".SH EXAMPLES", *told_after(program.after), f".SH FILES\n{inline(FILES)}", ".SH SEE ALSO\n.BR abt_formats (5), abt (3)"]
    return "\n".join(parts) + "\n"


def bash(program, them, names):
    """The words of the completions for bash."""
    cases = []
    for it in them:
        words = names if it.name == "help" else " ".join(it.flags())
        first = f'$([ "$COMP_CWORD" -eq 2 ] && echo {" ".join(it.words())}) ' if it.words() else ""
        files = "-f " if it.takes_a_file() else ""
        cases.append(f'        {it.name}) COMPREPLY=($(compgen {files}-W "{first}{words}" -- "$word")) ;;')
    return {"names": " ".join([names, *program.flags()]), "cases": "\n".join(cases)}


def quoted(text):
    """A text for a description between single quotes in zsh."""
    return text.replace("\\", "\\\\").replace("'", "'\\''").replace("[", "\\[").replace("]", "\\]").replace(":", "\\:")


def zsh(program, them, names):
    """The words of the completions for zsh."""
    cases = []
    for it in them:
        specs = []
        for option in it.options:
            value = f":{option.value}:{'_files' if option.value in VALUES else ''}" if option.value else ""
            specs += [f"'{flag}[{quoted(option.help)}]{value}'" for flag in option.flags]
        specs += [f"'1:word:({' '.join(it.words())})'"] if it.words() else []
        specs += ["'*:file:_files'"] if it.takes_a_file() else []
        specs += [f"'*:command:({names})'"] if it.name == "help" else []
        cases += [f"        {it.name}) _arguments {' '.join(specs)} ;;"] if specs else []
    commands = "\n".join(f"        '{it.name}:{quoted(it.about)}'" for it in them)
    flags = " ".join(f"'{flag}[{quoted(option.help)}]'" for option in program.options for flag in option.flags)
    return {"commands": commands, "flags": flags, "cases": "\n".join(cases)}


def fish(program, them, names):
    """The words of the completions for fish."""
    told = lambda text: text.replace("\\", "\\\\").replace("'", "\\'")
    flags = lambda option: " ".join(f"-l {flag[2:]}" if flag.startswith("--") else f"-s {flag[1:]}" for flag in option.flags)
    first = "complete -c abt -n __fish_use_subcommand"
    lines = [f"{first} {flags(option)} -d '{told(option.help)}'" for option in program.options]
    lines += [f"{first} -a {it.name} -d '{told(it.about)}'" for it in them]
    for it in them:
        seen = f"__fish_seen_subcommand_from {it.name}"
        within = f"complete -c abt -n '{seen}'"
        for option in it.options:
            value = "-r -F " if option.value in VALUES else "-x " if option.value else ""
            lines.append(f"{within} {flags(option)} {value}-d '{told(option.help)}'")
        words = " ".join(it.words())
        lines += [f"complete -c abt -n '{seen}; and not __fish_seen_subcommand_from {words}' -a '{words}'"] if words else []
        lines += [f"{within} -F"] if it.takes_a_file() else []
        lines += [f"{within} -a '{names}'"] if it.name == "help" else []
    return {"lines": "\n".join(lines)}


def texts():
    """Each file with its text."""
    program, them = commands()
    found = {"man/abt.1": manual(program, them), "man/abt_formats.5": page_of(text_of("docs/FORMATS.md"), "abt_formats", 5, VERSION)}
    for name, template, words_of in (("abt.bash", "abt.bash", bash), ("_abt", "abt.zsh", zsh), ("abt.fish", "abt.fish", fish)):
        words = words_of(program, them, " ".join(it.name for it in them))
        found[f"completions/{name}"] = text_of(f".ci/documents/templates/{template}").format(**words)
    return found


def main(*words):
    found = texts()
    if words == ("--write",):
        for name, text in found.items():
            (ROOT / name).parent.mkdir(parents=True, exist_ok=True)
            (ROOT / name).write_text(text)
    told = "isn't what the help and docs/FORMATS.md say; .ci/documents/pages.py --write writes it anew"
    differ = [name for name, text in found.items() if not (ROOT / name).is_file() or text_of(name) != text]
    report(f"{len(found)} files", [*(f"{name} {told}" for name in differ), *faults_of_statuses()])


if __name__ == "__main__":
    main(*sys.argv[1:])
