"""Keys, made of the bytes that a terminal sends."""
import enum
import re

# How many seconds a sequence that has begun waits for its rest.
SEQUENCE_WAIT = 0.05

# Whole sequences: those of the Linux console's first function keys, of most other keys, of some, and a key with Alt.
_SEQUENCE = re.compile(rb"\x1b(\[\[[ -~]|\[[0-?]*[ -/]*[@-Z\\-~]|O[ -~]|[^\x1b\[O])")
# Sequences that have begun and may go on.
_BEGUN = re.compile(rb"\x1b(\[\[?|\[[0-?]+[ -/]*|\[[ -/]+|O)?\Z")


class Key(enum.Enum):
    """What a key is for."""

    UP = b"w"
    LEFT = b"a"
    DOWN = b"s"
    RIGHT = b"d"
    ACT = b"x"
    UNDO = b"z"
    RESTART = b"r"
    QUIT = b"q"
    ENTER = b"\r"
    SPACE = b" "
    HELP = b"?"
    HINT = b"h"
    DRAW_ANEW = b"\x0c"
    PAGE_UP = b"\x1b[5~"
    PAGE_DOWN = b"\x1b[6~"
    FIRST = b"\x1b[H"
    LAST = b"\x1b[F"
    OTHER = b""


_BY_BYTE = {key.value: key for key in Key if key is not Key.OTHER}
_BY_BYTE[b"\n"] = Key.ENTER
_BY_END = {
    b"A": Key.UP, b"B": Key.DOWN, b"C": Key.RIGHT, b"D": Key.LEFT, b"5~": Key.PAGE_UP, b"6~": Key.PAGE_DOWN,
    b"H": Key.FIRST, b"1~": Key.FIRST, b"7~": Key.FIRST, b"F": Key.LAST, b"4~": Key.LAST, b"8~": Key.LAST,
}
_NAMED = re.compile(rb"\x1b[\[O]([A-DFH]|[1-8]~)\Z")


def _key_of_sequence(sequence):
    named = _NAMED.match(sequence)
    return _BY_END.get(named[1], Key.OTHER) if named else Key.OTHER


class KeyReader:
    """Reads keys from bytes, in whatever pieces they come."""

    def __init__(self):
        self._held = b""
        self.deadline = None

    def feed(self, data, now):
        """The keys that are whole with these bytes, which came at that time."""
        data, self._held, self.deadline = self._held + data, b"", None
        keys, place = [], 0
        while place < len(data):
            if _BEGUN.match(data, place):
                self._held, self.deadline = data[place:], now + SEQUENCE_WAIT
                break
            sequence = _SEQUENCE.match(data, place)
            if sequence:
                keys.append(_key_of_sequence(sequence[0]))
                place = sequence.end()
            else:
                keys += self._alone(data[place:place + 1])
                place += 1
        return keys

    def give_up(self):
        """The keys of a sequence whose rest doesn't come: an ESC is nothing, and others are read for themselves."""
        data, self._held, self.deadline = self._held, b"", None
        return [Key.OTHER] + [key for byte in data[1:] for key in self._alone(bytes([byte]))]

    @staticmethod
    def _alone(byte):
        """The key of a byte; of a character of several bytes the first counts."""
        if b"\x80" <= byte <= b"\xbf":
            return []
        return [_BY_BYTE.get(byte.lower(), Key.OTHER)]
