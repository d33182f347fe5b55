"""The file of `abt conform`: it replaces and removes a file only if that bears its mark."""
import contextlib
import os
import secrets
import stat
from pathlib import Path

from shown import shown
from side import SIGNALS, Unfit

# The first line of a file that this tool may replace and remove. A reader of scenarios takes it as a comment; one of cells has none.
MARK = "# abt conform wrote this file, and replaces or removes it when it runs again.\n"


class OwnFile:
    """A file that is to be written, with a mark if its reader takes one."""

    def __init__(self, name, is_marked):
        self.path, self.shown, self.mark = Path(name), shown(name), MARK if is_marked else ""

    def refusal(self, command):
        """Why this can't be the file, or None."""
        if any(self.is_named(word) for word in command):
            return f"{self.shown} is a word of COMMAND: name another file by --to"
        return self.is_in_the_way()

    def is_named(self, word):
        """Whether a word names this file, also behind an equals sign."""
        for name in {word, word.partition("=")[2]} - {""}:
            with contextlib.suppress(OSError, ValueError):
                if os.path.realpath(name) == os.path.realpath(self.path) or os.path.samefile(name, self.path):
                    return True
        return False

    def is_in_the_way(self):
        """What keeps the file from being written, or None."""
        other = "name another file by --to"
        try:
            what = os.lstat(self.path)
        except FileNotFoundError:
            return None if self.path.parent.is_dir() else f"the folder of {self.shown} isn't there: {other}"
        except (OSError, ValueError) as error:
            return f"{self.shown} can't be looked at ({getattr(error, 'strerror', error)}): {other}"
        if not stat.S_ISREG(what.st_mode):
            return f"{self.shown} is no regular file: {other}"
        if not self.mark:
            return f"{self.shown} is there already, and a file of cells bears no mark of whose it is: move it away, or {other}"
        return None if self.is_own() else f"{self.shown} wasn't written by abt conform: move it away, or {other}"

    def is_own(self):
        """Whether the file there bears the mark."""
        try:
            with open(self.path, "rb") as file:
                return bool(self.mark) and file.read(len(self.mark)) == self.mark.encode()
        except OSError:
            return False

    def write(self, text):
        """Puts a text there, and gives it with its mark: a new file beside it takes its place at once."""
        if why := self.is_in_the_way():
            raise Unfit(why)
        new = self.path.with_name(f".conform-{secrets.token_hex(6)}")
        with SIGNALS.held():
            try:
                with open(new, "xb") as file:
                    file.write(f"{self.mark}{text}".encode())
                os.replace(new, self.path)
            except OSError as error:
                raise Unfit(f"{self.shown} can't be written: {error.strerror}") from None
            finally:
                new.unlink(missing_ok=True)
        return f"{self.mark}{text}"

    def remove(self):
        """Removes the file of a run before."""
        try:
            if stat.S_ISREG(os.lstat(self.path).st_mode) and self.is_own():
                self.path.unlink()
        except FileNotFoundError:
            pass
        except OSError as error:
            raise Unfit(f"{self.shown} can't be removed: {error.strerror}") from None
