"""A run as its output is: each frame below the last one."""
from harmless import decoded, harmless_lines


class PlainScreen:
    """Writes the output of a run, of which the terminal takes nothing as an order."""

    is_paced = False

    def __init__(self, console):
        self._console = console
        self._is_begun = False

    def show(self, part):
        """Writes a part of the output."""
        self._is_begun = True
        self._console.write(harmless_lines(decoded(part.data)))

    def note(self, text):
        """A note has no place here."""

    def ask(self, text):
        """Writes a question."""
        self._console.write(harmless_lines(f"? {text}\n"))

    def take_back(self):
        """What was written stays."""

    def clear_news(self):
        """What was written stays."""

    def turn_page(self):
        """A message is one page."""
        return False

    def redraw(self):
        """What was written stays."""

    def read(self, lines, events):
        """Writes lines that were asked for."""
        self._console.write(harmless_lines("".join(f"{line}\n" for line in lines)))

    def leave(self, ending):
        """Writes what the run ends with; nothing of one that never began."""
        if self._is_begun:
            self._console.write(harmless_lines(decoded(ending)))
