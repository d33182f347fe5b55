"""Tries the manual pages with man, and the completions with each shell that is there.

usage: test_pages.py
"""
import os
import re
import shutil
import subprocess

from documents import ROOT, report


def ran(*words, **how):
    return subprocess.run(words, stdin=subprocess.DEVNULL, capture_output=True, text=True, check=False, cwd=ROOT, **how)


def warnings(page):
    """What man has against a page."""
    environment = {**os.environ, "LC_ALL": "C.UTF-8", "MANWIDTH": "100"}
    done = ran("man", "--warnings", "-E", "UTF-8", "-l", "-Tutf8", "-Z", str(page), env=environment)
    return done.stderr.strip() or (f"status {done.returncode}" if done.returncode else "")


def shown(page):
    """A page as a reader has it, without emphasis."""
    environment = {**os.environ, "LC_ALL": "C.UTF-8", "MANWIDTH": "1000", "MAN_KEEP_FORMATTING": ""}
    done = ran("man", "-E", "UTF-8", "-l", "-Tutf8", str(page), env=environment)
    return re.sub(r"\x1b\[[0-9;]*m|.\x08", "", done.stdout)


def raw(page):
    """The marks of Markdown that a page still has, its examples left out."""
    text = re.sub(r"^\.nf$.*?^\.fi$", "", page.read_text(), flags=re.M | re.S)
    return re.findall(r"`|\*\*|\]\(|(?<![\w*])\*\w[^*\n]*\w\*(?![\w*])", text)


def completed(*words):
    """What bash completes at the last of some words."""
    given = " ".join(f"'{word}'" for word in words)
    asked = f"COMP_WORDS=({given}); COMP_CWORD={len(words) - 1}; _abt; printf '%s\\n' \"${{COMPREPLY[@]}}\""
    return ran("bash", "-c", f"source completions/abt.bash; {asked}").stdout.split()


def faults():
    texts = {file.name: file.read_text() for file in (ROOT / "man" / "help").iterdir()}
    names = re.findall(r"^  ([a-z]+)  ", texts["abt"].split("Commands:\n", 1)[1].split("\n\n", 1)[0], re.M)
    options = {name: texts[f"abt-{name}"].partition("\nOptions:\n")[2].partition("\n\n")[0] for name in names}
    flags = {name: re.findall(r"(?<![\w-])--?[a-z][\w-]*", text) for name, text in options.items()}
    for page in sorted((ROOT / "man").glob("*.[1-9]")):
        if told := raw(page):
            yield f"{page.name}: {' '.join(told)} stand in it as in Markdown"
    if shutil.which("man"):
        for page in sorted((ROOT / "man").glob("*.[1-9]")):
            if told := warnings(page):
                yield f"{page.name}: man warns: {told[:200]}"
        text = shown(ROOT / "man" / "abt.1")
        for name in names:
            # Its title is set in by three columns; a line of other texts may end in these words, deeper.
            part = re.split(rf"\n {{3}}abt {name}\n", text)[-1]
            missing = [flag for flag in flags[name] if flag not in part]
            if f"abt {name}\n" not in text or missing:
                yield f"abt.1 doesn't name abt {name} {' '.join(missing)}"
    if shutil.which("bash"):
        if sorted(completed("abt", "")) != sorted([*names, "-h", "--help", *(["-V", "--version"] if "--version" in texts["abt"] else [])]):
            yield f"bash completes no command as {completed('abt', '')}"
        for name in names:
            if completed("abt", name) != [name]:
                yield f"bash completes {name} as {completed('abt', name)}"
            if missing := sorted({*flags[name]} - {*completed("abt", name, "-")}):
                yield f"bash doesn't complete {missing} of abt {name}"
        for given, wanted in ((("",), ["no", "request", "yes"]), (("re",), ["request"]), (("request", ""), [])):
            if (found := sorted(it for it in completed("abt", "write", *given) if not it.startswith("-"))) != wanted:
                yield f"bash completes abt write {given} as {found}"
        if "docs/" not in " ".join(completed("abt", "run", "doc")) and "docs" not in completed("abt", "run", "doc"):
            yield "bash completes no file behind abt run"
    for shell, file in (("zsh", "_abt"), ("fish", "abt.fish")):
        if shutil.which(shell) and (done := ran(shell, "-n", f"completions/{file}")).returncode:
            yield f"{file}: {done.stderr[:200]}"


report("pages and completions", list(faults()))
