"""The program ps_play: what it says of a game, a run of it, and a view that shows a run's output."""
import fcntl
import json
import os
import signal
import struct
import subprocess
import tempfile
import termios

from harmless import name_text

# Seconds that a program which was told to end is waited for.
_PATIENCE = 2


class Fault(Exception):
    """The player refuses the game, or can't be run: what it says, and its status."""

    def __init__(self, said, status):
        super().__init__(said, status)
        self.said = said
        self.status = status


def _start(words, ignored, **streams):
    """Starts a program that ignores some signals which the terminal sends to all: this one ends it then."""

    def ignore():
        """Done in the new process before the program begins."""
        for number in ignored:
            signal.signal(number, signal.SIG_IGN)

    try:
        return subprocess.Popen(words, preexec_fn=ignore, stdin=subprocess.PIPE, bufsize=0, **streams)
    except OSError as error:
        raise _cannot_run(words[0], error) from error


def _cannot_run(path, error):
    return Fault(f"play: cannot run {name_text(path)}: {error.strerror}\n".encode(), 1)


def _wait(process):
    """Waits until it has ended, and ends it where that takes too long."""
    try:
        return process.wait(_PATIENCE)
    except subprocess.TimeoutExpired:
        process.kill()
        return process.wait()


def status_of(code):
    """The status of a program that ended, as a shell tells it."""
    return 128 - code if code < 0 else code


class Described:
    """What the player says of a game: the title, how many levels, the keys without use, the glyphs, and what has none."""

    def __init__(self, said):
        self.title = said.get("title", "")
        self.levels = said.get("levels", 0)
        self.ignored = said.get("ignored_keys", [])
        self.glyphs = [(each["glyph"], each["objects"]) for each in said.get("glyphs", [])]
        self.without_glyph = said.get("without_glyph", [])


class Player:
    """The program, by its path."""

    def __init__(self, path):
        self.path = path
        self._help = None

    def describe(self, game):
        """What it says of the game; raises Fault where the text has one."""
        try:
            told = subprocess.run([self.path, "--describe", game], stdin=subprocess.DEVNULL, capture_output=True)
        except OSError as error:
            raise _cannot_run(self.path, error) from error
        if told.returncode != 0:
            raise Fault(told.stdout + told.stderr, status_of(told.returncode))
        return Described(json.loads(told.stdout))

    def knows(self, option):
        """Whether it has an option of that name."""
        if self._help is None:
            told = subprocess.run([self.path, "--help"], stdin=subprocess.DEVNULL, capture_output=True)
            self._help = [word for line in told.stdout.splitlines() for word in line.split()[:1]]
        return option.encode() in self._help

    def solve_after(self, game, level, keys, states, seconds):
        """What is said of the level to which keys of a run lead that began at a level; None where it takes longer."""
        asked = [*_from(level), "--solve", "--states", str(states), "--after", "-"]
        try:
            told = subprocess.run([self.path, game, *asked], input=keys, capture_output=True, timeout=seconds)
        except (subprocess.TimeoutExpired, OSError):
            return None
        return told.stdout


def _from(level):
    """The words by which a run begins at a level, or at the start."""
    return ["--level", str(level)] if level is not None else []


class Run:
    """A run of a game: key bytes go in, its output comes out at `output`."""

    def __init__(self, player, game, level=None, is_traced=False):
        self._told = tempfile.TemporaryFile()
        trace = ["--trace"] if is_traced else []
        self._process = _start(
            [player.path, game, *_from(level), *trace],
            [signal.SIGINT, signal.SIGQUIT],
            stdout=subprocess.PIPE,
            stderr=self._told,
        )
        self.output = self._process.stdout.fileno()

    def send(self, key):
        """Hands a key to the player. Whether that takes it: where it has ended its output tells so."""
        try:
            self._process.stdin.write(key)
        except OSError:
            return False
        return True

    def unread(self):
        """How many of the keys it was handed it hasn't read."""
        return struct.unpack("i", fcntl.ioctl(self._process.stdin, termios.FIONREAD, bytes(4)))[0]

    def end(self):
        """Ends the run, however far it is. Its status, and what it said on standard error."""
        self._process.stdin.close()
        code = _wait(self._process)
        self._process.stdout.close()
        self._told.seek(0)
        return status_of(code), self._told.read()

    def kill(self):
        """Ends it at once."""
        self._process.kill()
        self._process.wait()


class View:
    """A view on a terminal of some size: it shows the lines that it is handed as they come."""

    def __init__(self, player, game, size, screen):
        self._told = tempfile.TemporaryFile()
        self._process = _start(
            [player.path, game, "--view", "{}x{}".format(*size), "--show", "-"],
            [signal.SIGINT, signal.SIGQUIT, signal.SIGTSTP],
            stdout=screen,
            stderr=self._told,
        )

    def hand(self, data):
        """Hands lines to the view; raises Fault where it has ended."""
        try:
            while data:
                data = data[os.write(self._process.stdin.fileno(), data):]
        except OSError as error:
            status = self.end()
            self._told.seek(0)
            raise Fault(self._told.read(), status or 1) from error

    def end(self):
        """No more lines come: what it was handed is drawn, and it ends. Its status."""
        self._process.stdin.close()
        return status_of(_wait(self._process))
