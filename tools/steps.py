"""What a long build is at, told on standard error."""
import os
import sys
import threading
import time

# How often the line at a terminal is drawn anew, in seconds.
_EVERY = 1.0
_CLEAR_LINE = "\r\x1b[K"


def nothing():
    """For a build that tells no steps."""


class Steps:
    """The steps of a build: at a terminal one line says which one it is at, and counts the time; elsewhere each step is a line."""

    def __init__(self, name, *steps):
        self._name, self._steps, self._number = name, steps, 0
        self._began = time.monotonic()
        self._is_drawn = sys.stderr.isatty()
        self._over = threading.Event()
        self._drawing = threading.Thread(target=self._draw_on, daemon=True)

    def __enter__(self):
        if self._is_drawn:
            self._drawing.start()
        return self

    def __exit__(self, *_):
        self._over.set()
        if self._is_drawn:
            self._drawing.join()
            self._write(_CLEAR_LINE)

    def next(self):
        """The next step begins."""
        self._number = min(self._number + 1, len(self._steps))
        self._write(_CLEAR_LINE + self._line(self._columns()) if self._is_drawn else f"{self._said()}\n")

    def _said(self):
        return f"{self._name}: {self._number} of {len(self._steps)}, {self._steps[self._number - 1]}"

    def _line(self, columns):
        """What the terminal shows, with the minutes and seconds since the beginning, in one row."""
        seconds = int(time.monotonic() - self._began)
        clock = f" {seconds // 60}:{seconds % 60:02}"
        return self._said()[:max(columns - 1 - len(clock), 0)] + clock

    @staticmethod
    def _columns():
        try:
            return os.get_terminal_size(sys.stderr.fileno()).columns or 80
        except OSError:
            return 80

    @staticmethod
    def _write(text):
        try:
            sys.stderr.write(text)
            sys.stderr.flush()
        except OSError:
            pass  # Nobody reads it any more.

    def _draw_on(self):
        """Draws the line again and again, as long as the build goes on."""
        while not self._over.wait(_EVERY):
            if self._number:
                self._write(_CLEAR_LINE + self._line(self._columns()))
