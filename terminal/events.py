"""What happens next: a key, output of the player, a screen that must be drawn anew, a stop."""
import collections
import enum
import os
import select
import signal
import time

from signals import DEADLY, Killed
from typed_keys import KeyReader

_MOST_BYTES = 65536


class Kind(enum.Enum):
    """What happened."""

    KEY = 1
    OUTPUT = 2
    DRAW = 3
    STOP = 4
    TIME = 5


# Something that happened: a key, or bytes of output (none where the output has ended), come with it.
Event = collections.namedtuple("Event", "kind value")


class Events:
    """Waits for the keys of a console, the output of a run, and signals."""

    def __init__(self, console, signals):
        self._console = console
        self._signals = signals
        self._keys = KeyReader()
        self._waiting = collections.deque()
        self.output = None

    def next(self, deadline=None):
        """The next thing that happens, or that this time has come. Raises Killed at a deadly signal."""
        while not self._waiting:
            ends = [end for end in (deadline, self._keys.deadline) if end is not None]
            self._look(max(0, min(ends) - time.monotonic()) if ends else None)
            now = time.monotonic()
            if not self._waiting and self._keys.deadline is not None and now >= self._keys.deadline:
                self._add_keys(self._keys.give_up())
            if not self._waiting and deadline is not None and now >= deadline:
                return Event(Kind.TIME, None)
        return self._waiting.popleft()

    def stop(self):
        """Stops this program, on a terminal that is as before; goes on with each key as it is pressed."""
        self._console.give_back()
        self._signals.stop_here()
        self._console.take()
        for number in self._signals.told():
            if number != signal.SIGCONT:
                self._add_signal(number)

    def drop_keys(self):
        """Keys that were typed and not told yet are dropped."""
        self._look(0)
        self._waiting = collections.deque(event for event in self._waiting if event.kind is not Kind.KEY)

    def _look(self, seconds):
        """Takes what is there, or comes within that time, in seconds."""
        sources = [source for source in (self._console.keys, self._signals.fd, self.output) if source is not None]
        ready = select.select(sources, [], [], seconds)[0]
        for number in self._signals.told():
            self._add_signal(number)
        if self._console.keys in ready:
            self._read_keys()
        if self.output in ready:
            self._waiting.append(Event(Kind.OUTPUT, os.read(self.output, _MOST_BYTES)))

    def _add_signal(self, number):
        if number in DEADLY:
            raise Killed(number)
        if number == signal.SIGTSTP:
            self._waiting.append(Event(Kind.STOP, None))
        else:
            if number == signal.SIGCONT:
                self._console.take()
            self._waiting.append(Event(Kind.DRAW, None))

    def _read_keys(self):
        """Keys that can't be read are those of a terminal that was closed."""
        try:
            data = os.read(self._console.keys, _MOST_BYTES)
        except OSError:
            data = b""
        if not data:
            raise Killed(signal.SIGHUP)
        self._add_keys(self._keys.feed(data, time.monotonic()))

    def _add_keys(self, keys):
        self._waiting.extend(Event(Kind.KEY, key) for key in keys)
