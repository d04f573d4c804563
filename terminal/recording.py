"""The keys of a play, kept in a file from which it can be played again."""
import os
import stat

from harmless import name_text
from player import Fault

_FLAGS = os.O_WRONLY | os.O_CREAT | os.O_APPEND | os.O_NOCTTY | os.O_NONBLOCK | os.O_CLOEXEC


def _opened(name):
    """The descriptor of a file that is new or empty, so that no recording is written over; raises Fault for another."""
    try:
        file = os.open(name, _FLAGS, 0o666)
    except OSError as error:
        raise _cannot_record(name, error.strerror) from error
    found = os.fstat(file)
    if stat.S_ISREG(found.st_mode) and found.st_size == 0:
        return file
    os.close(file)
    is_filled = stat.S_ISREG(found.st_mode)
    raise _cannot_record(name, "it isn't empty; name a new file" if is_filled else "it is no regular file")


def _cannot_record(name, why):
    return Fault(f"play: cannot record in {name_text(name)}: {why}\n".encode(), 1)


class Recording:
    """Keeps each key that a run takes, as soon as it does. Without the name of a file it keeps none.

    Where a key can't be written none is after it, so that the file has always the first keys of the play.
    """

    def __init__(self, name=None):
        self._name = name
        self._file = None if name is None else _opened(name)
        # How many keys the run took, how many of them the file has, and why it hasn't all.
        self._taken, self._kept, self.trouble = 0, 0, None

    def keep(self, key):
        """The run took a key. A line for the player, where keys are kept no longer; otherwise None."""
        self._taken += 1
        if self._file is None or self.trouble:
            return None
        try:
            os.write(self._file, key)
        except OSError as error:
            self.trouble = error.strerror
            return f"Your keys are kept no longer: {self.trouble}."
        self._kept += 1
        return None

    def end(self, unread):
        """The run is over. The last keys that it took are no part of the play, as far as they are unread."""
        if self._file is None:
            return
        self._taken -= unread
        try:
            if self._kept > self._taken:
                os.ftruncate(self._file, self._taken)
                self._kept = self._taken
            if os.fstat(self._file).st_nlink == 0:
                self.trouble, self._kept = "it was deleted", 0
            os.close(self._file)
        except OSError as error:
            self.trouble = error.strerror

    def told(self):
        """What is said of it once the play is over."""
        if self._file is None:
            return ""
        if self.trouble is not None:
            keys = f"{self._kept} of {self._taken} keys: {self.trouble}"
        else:
            keys = "1 key" if self._kept == 1 else f"{self._kept} keys"
        return f"play: {name_text(self._name)} has {keys}\n"
