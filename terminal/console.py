"""The terminal: its attributes, its size, and what this program itself writes to it."""
import errno
import os
import termios

from harmless import harmless
from widths import cut

_USUAL_SIZE = (24, 80)
_SHOW_CURSOR = "\x1b[?25h"
_HIDE_CURSOR = "\x1b[?25l"
_CLEAR = "\x1b[2J"
_CLEAR_BELOW = "\x1b[J"


class Console:
    """A terminal, by the descriptors that its keys come from and that its screen is written to."""

    def __init__(self, keys, screen):
        self.keys = keys
        self.screen = screen
        self._saved = None

    def take(self):
        """From now on each key comes as it is pressed, and isn't shown."""
        if self._saved is None:
            self._saved = termios.tcgetattr(self.keys)
        attributes = termios.tcgetattr(self.keys)
        attributes[3] &= ~(termios.ICANON | termios.ECHO)
        attributes[6][termios.VMIN], attributes[6][termios.VTIME] = 1, 0
        self._set(attributes)

    def _set(self, attributes):
        """Sets attributes. In the background the program is stopped there, and tries again once it is in the foreground."""
        while True:
            try:
                return termios.tcsetattr(self.keys, termios.TCSANOW, attributes)
            except termios.error as error:
                if error.args[0] != errno.EINTR:
                    raise

    def give_back(self, with_keys=True):
        """The attributes are as before; keys that nobody read yet are left to the shell, or dropped."""
        if self._saved is not None:
            try:
                if not with_keys:
                    termios.tcflush(self.keys, termios.TCIFLUSH)
                self._set(self._saved)
            except termios.error:
                pass  # The terminal is gone.
            self._saved = None

    def size(self):
        """Its rows and columns now."""
        try:
            columns, rows = os.get_terminal_size(self.screen)
        except OSError:
            return _USUAL_SIZE
        return (rows, columns) if rows > 0 and columns > 0 else _USUAL_SIZE

    def write(self, text):
        """Writes a text that is harmless, or an order of this module."""
        data = text.encode("utf-8", "replace")
        try:
            while data:
                data = data[os.write(self.screen, data):]
        except OSError:
            pass  # The terminal is gone, which its keys tell.

    def show_page(self, lines):
        """Shows lines in place of all that stands on the screen, cut to its size."""
        rows, columns = self.size()
        shown = [cut(harmless(line), columns) for line in lines[:rows]]
        self.write(_HIDE_CURSOR + _CLEAR + "\x1b[1;1H" + "\r\n".join(shown))

    def leave_page(self):
        """Clears a page, and shows the cursor in its place."""
        self.write(_CLEAR + "\x1b[1;1H" + _SHOW_CURSOR)

    def leave_at(self, row):
        """Puts the cursor at the left of a row, by its number from 1, clears all from there on, and shows it."""
        self.write(f"\x1b[{row};1H" + _CLEAR_BELOW + _SHOW_CURSOR)
