"""How far each game was played, kept from one time to the next."""
import os
import pathlib


def _folder():
    """Where that is kept; where nobody has a home, nowhere."""
    state = os.environ.get("XDG_STATE_HOME", "")
    if not os.path.isabs(state):
        state = os.path.expanduser("~/.local/state")
    return pathlib.Path(state if os.path.isabs(state) else os.devnull) / "lizhakoven" / "progress"


class Progress:
    """The furthest level of the game whose text has this digest, in a file of its own.

    Where the folder can't be read or written nothing is kept, and that is no error.
    """

    def __init__(self, digest):
        self._file = _folder() / digest
        self._furthest = self._read()

    def _read(self):
        try:
            word = self._file.read_bytes()[:16].strip()
        except OSError:
            return 1
        return int(word) if word.isdigit() else 1

    def level(self, levels):
        """The level at which the game goes on, from 1 to the number of its levels; 1 where it begins anew."""
        return self._furthest if 1 < self._furthest <= levels else 1

    def reached(self, level):
        """A level was reached."""
        if level > self._furthest:
            self._furthest = level
            self._write(f"{level}\n")

    def won(self):
        """The game was won: next time it begins anew."""
        self._furthest = 1
        try:
            self._file.unlink()
        except OSError:
            pass

    def _write(self, text):
        """The file is replaced as a whole."""
        new = self._file.with_name(f"{self._file.name}.{os.getpid()}")
        try:
            self._file.parent.mkdir(parents=True, exist_ok=True)
            new.write_text(text)
            os.replace(new, self._file)
        except OSError:
            pass
