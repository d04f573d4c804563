"""The output of a run, told apart: titles, levels, frames, messages and endings, and the lines of a trace."""
import collections
import enum


class Kind(enum.Enum):
    """What a part of an output is."""

    TITLE = 1
    LEVEL = 2
    FRAME = 3
    MESSAGE = 4
    DONE = 5
    ENDING = 6
    TRACE = 7


# A part of an output: its kind, and its bytes with all their line feeds.
Part = collections.namedtuple("Part", "kind data")

_MARKS = [
    (b"= ", Kind.TITLE),
    (b"# ", Kind.LEVEL),
    (b"! ", Kind.MESSAGE),
    (b"* level ", Kind.DONE),
    (b"* ", Kind.ENDING),
    (b"> ", Kind.TRACE),
    (b"  | ", Kind.TRACE),
]


def level_number(data):
    """The number of a level's line; 0 where it has none."""
    word = data[len(b"# level "):].strip()
    return int(word) if word.isdigit() else 0


class OutputReader:
    """Reads the parts of an output from bytes, in whatever pieces they come."""

    def __init__(self):
        self._line = b""
        self._rows = b""

    def feed(self, data):
        """The parts that are whole with these bytes."""
        parts = []
        *lines, self._line = (self._line + data).split(b"\n")
        for line in lines:
            kind = next((kind for mark, kind in _MARKS if line.startswith(mark)), None)
            if kind:
                parts.append(Part(kind, line + b"\n"))
            else:
                self._rows += line + b"\n"
                if not line:
                    parts.append(Part(Kind.FRAME, self._rows))
                    self._rows = b""
        return parts

    def is_within(self):
        """Whether a part has begun and isn't whole."""
        return bool(self._line or self._rows)
