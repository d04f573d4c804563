"""Signals, told in turn with keys and output and not in between."""
import os
import signal

# Those that end this program, once the terminal is as it was before.
DEADLY = (signal.SIGHUP, signal.SIGINT, signal.SIGQUIT, signal.SIGTERM)
_OTHERS = (signal.SIGTSTP, signal.SIGCONT, signal.SIGWINCH)


class Killed(Exception):
    """A deadly signal came."""

    def __init__(self, number):
        super().__init__(number)
        self.number = number


def _nothing(number, frame):
    """The signal is told by the pipe alone."""


def _killed(number, frame):
    raise Killed(number)


def raise_killed():
    """From now on a deadly signal raises Killed wherever it comes, so that what was begun is ended."""
    _handle(DEADLY, _killed)


def _handle(numbers, handler):
    """Signals that were ignored before, as by nohup, still are."""
    for number in numbers:
        if signal.getsignal(number) != signal.SIG_IGN:
            signal.signal(number, handler)


class Signals:
    """Catches signals from `catch` on, and tells them when it is asked."""

    def __init__(self):
        self.fd, self._write = os.pipe()
        os.set_blocking(self.fd, False)
        os.set_blocking(self._write, False)

    def catch(self):
        """From now on signals are told by `told`."""
        signal.set_wakeup_fd(self._write, warn_on_full_buffer=False)
        _handle(DEADLY + _OTHERS, _nothing)

    def told(self):
        """The numbers of the signals that came since the last call."""
        try:
            return list(dict.fromkeys(os.read(self.fd, 4096)))
        except BlockingIOError:
            return []

    @staticmethod
    def stop_here():
        """Stops this program as the key ctrl-Z does; returns when it goes on."""
        signal.signal(signal.SIGTSTP, signal.SIG_DFL)
        os.kill(os.getpid(), signal.SIGTSTP)
        signal.signal(signal.SIGTSTP, _nothing)


def die_by(number):
    """Ends this program by the signal, so that whoever started it can tell."""
    if number == signal.SIGQUIT:
        import resource
        resource.setrlimit(resource.RLIMIT_CORE, (0, resource.getrlimit(resource.RLIMIT_CORE)[1]))
    signal.signal(number, signal.SIG_DFL)
    os.kill(os.getpid(), number)
    os._exit(128 + number)
