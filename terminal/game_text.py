"""The text of a game, which is read once: an author may change the file while it is played."""
import hashlib
import os
import sys
import tempfile

# The player refuses longer texts.
_LONGEST = 1 << 20


def _bytes_of(name):
    """The bytes of a file, or of standard input, as far as the player can refuse them."""
    if name == "-":
        return sys.stdin.buffer.read(_LONGEST + 1)
    with open(name, "rb") as file:
        return file.read(_LONGEST + 1)


class GameText:
    """A copy of a game's text, in a file that is deleted at the end."""

    def __init__(self, name):
        self.data = _bytes_of(name)
        self.digest = hashlib.sha256(self.data).hexdigest()
        descriptor, self.path = tempfile.mkstemp(prefix="play-", suffix=".game")
        os.close(descriptor)
        self.write(self.data)

    def write(self, data):
        """Makes the copy have these bytes."""
        with open(self.path, "wb") as file:
            file.write(data)

    def __enter__(self):
        return self

    def __exit__(self, *_):
        os.unlink(self.path)
