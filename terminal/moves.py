"""How many moves were made in a level."""
from typed_keys import Key

_MOVES = (Key.UP, Key.LEFT, Key.DOWN, Key.RIGHT, Key.ACT)
# How many boards the player keeps for undo.
_MOST_KEPT = 1000


class MoveCount:
    """Counts the keys that changed what is seen of a level.

    As the player keeps the board before each change for undo, so the count before it is kept here, with its frame.
    """

    def __init__(self):
        self.level_begins()

    def level_begins(self):
        """A level begins with no move."""
        self.count = 0
        self._kept = []
        self._key = None
        self._frame = None

    def key_sent(self, key):
        """A key was handed to the player; the frames that come next answer it."""
        self._key = key

    def frame_comes(self, frame):
        """A frame comes. The first one of a key that differs from the last says that the key did something."""
        if self._key is Key.RESTART:
            self._keep()
            self.count = 0
        elif self._key is Key.UNDO:
            self._take_back(hash(frame))
        elif self._key in _MOVES and frame != self._frame:
            self._keep()
            self.count += 1
        if self._key not in _MOVES or frame != self._frame:
            self._key = None
        self._frame = frame

    def _keep(self):
        self._kept = self._kept[1 - _MOST_KEPT:] + [(hash(self._frame), self.count)]

    def _take_back(self, frame):
        """Undo brought a frame: that of the board that was kept last, or the same as before where none is left."""
        if self._kept and self._kept[-1][0] == frame:
            self.count = self._kept.pop()[1]

    def text(self):
        """The count in words."""
        return "1 move" if self.count == 1 else f"{self.count} moves"
