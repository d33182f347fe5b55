"""What a user does with an unpacked release, by cases/packages/uses.toml: examples built and run in each language, misuse refused."""
import os
import shutil
import subprocess
import sys
from pathlib import Path

ROOT = Path(__file__).resolve().parents[2]
sys.path.insert(0, str(ROOT / "tests"))
from harness import case_file  # noqa: E402

# The uses; a user's project for CMake, a user's crate, and a library of another version.
PROJECTS = Path(__file__).resolve().parent / "cases" / "packages"
WRAPPERS = ROOT / "wrappers"
# Builds the two tests of the wrapper for C++ by these words, and runs them.
CPP = """for test in rows random; do
    "$@" $STRICT -I$ROOT/include -o $test $WRAPPERS/cpp/$test.cpp $ROOT/lib/libabt.a
    ./$test
done
"""
# How long one line may take, in seconds.
LONGEST = 600


class Uses:
    """Tries what this machine has tools for; a failure ends the test."""

    def __init__(self, root, room, path, version):
        self.room, self.path, self.examples = room, path, root / "share" / "doc" / "abt" / "examples"
        self.uses = case_file(PROJECTS / "uses", room=room, version=version)["use"]
        kept = {name: value for name, value in os.environ.items() if not name.startswith(("ABT_", "PYTHON"))}
        places = {"ROOT": root, "ROOM": room, "EXAMPLES": self.examples, "WRAPPERS": WRAPPERS, "PROJECTS": PROJECTS}
        places |= {"CARGO_TARGET_DIR": room / "target", "PYTHONPATH": root / "share/abt/python", "PKG_CONFIG_PATH": root / "lib/pkgconfig"}
        self.environment = kept | {name: str(place) for name, place in places.items()} | {
            "STRICT": "-Wall -Wextra -Wpedantic -Werror",
            "SANITIZE": "-g -fsanitize=address,undefined -fno-sanitize-recover=all",
            "VALGRIND": "valgrind -q --error-exitcode=9 --leak-check=full",
            "CPP": f"sh -e {room}/cpp",
            "MISUSES": " ".join(map(str, sorted((WRAPPERS / "cpp" / "must-not-compile").glob("*.cpp")))),
            **{"PATH": path, "LC_ALL": "C", "CARGO_NET_OFFLINE": "true", "PYTHONDONTWRITEBYTECODE": "1"},
        }
        (room / "cpp").write_text(CPP)
        if shutil.which("rt", path=path):
            sys.exit("packages: the command rt is on PATH")

    def run(self, line):
        """How a line ends: its status, and what it told."""
        streams = {"stdin": subprocess.DEVNULL, "stdout": subprocess.PIPE, "stderr": subprocess.STDOUT}
        ran = subprocess.run(["sh", "-e", "-c", line], cwd=self.room, env=self.environment, **streams, text=True, timeout=LONGEST)
        return ran.returncode, ran.stdout

    def carry_out(self, step):
        status, told = self.run(step["run"])
        shown = [(self.examples / step["shows"]).read_text()] if "shows" in step else []
        missing = [text for text in [*step.get("tells", []), *shown] if text not in told]
        if bool(status) != step.get("fails", False) or missing:
            sys.exit(f"packages: {step['run']} ended with status {status}, without {missing}\n{told[-3000:]}")

    def is_here(self, use):
        return all(shutil.which(tool, path=self.path) for tool in use["tools"]) and not self.run(use.get("needs", ":"))[0]

    def try_all(self):
        """Tries all uses; gives the names of those that were tried, and of those for which a tool isn't here."""
        here = [use for use in self.uses if self.is_here(use)]
        for use in here:
            for step in use["steps"]:
                self.carry_out(step)
        return [use["name"] for use in here], [use["name"] for use in self.uses if use not in here]
