"""A run whose board stays in place: views of the player draw it."""
from messages import Message, beginning
from pages import read_pages
from player import Fault, View
from run_output import Kind
from standing import Standing
from widths import wrapped

# The lines of title, level and keys below a frame.
_LINES_BELOW = 3
# On terminals of so few rows these lines would leave a high board hardly any: it is shown as on the highest terminal without them.
_LOW = range(8, 11)
_WITHOUT_LINES = 7


class ViewScreen:
    """Hands a run's output on to a view, and what stands on the screen to another one, where that is drawn anew."""

    is_paced = True

    def __init__(self, console, player, game):
        self._console = console
        self._player = player
        self._game = game
        self._standing = Standing()
        self._message = None
        self._question = ""
        self._view = None
        self._size = None

    def show(self, part):
        """Shows a part of the output; of a message its first page."""
        self._standing.take(part)
        if part.kind is Kind.MESSAGE:
            text = part.data[2:-1].decode("utf-8", "surrogateescape")
            self._message = Message(text, self._wanted())
            self._show_message()
        else:
            self._message = None if part.kind in (Kind.LEVEL, Kind.FRAME) else self._message
            self._hand(part.data)

    def note(self, text):
        """Puts a note at the level's line, which is drawn with what comes next."""
        self._standing.note = f"~ {text}\n".encode()
        self._hand(self._standing.note)

    def ask(self, text):
        """Shows a question, or what else isn't said by the game, in place of what was told last."""
        self._question = text
        self._show_news(self._asked())

    def take_back(self):
        """Takes a question back: a message that waits stands again."""
        if self._message:
            self._show_message()
        else:
            self.clear_news()

    def clear_news(self):
        """Nothing is told any more below the board."""
        self._message = None
        self.ask("")

    def turn_page(self):
        """Shows the next page of the message. Whether there is one."""
        is_turned = self._message is not None and self._message.turn_page()
        if is_turned:
            self._show_message()
        return is_turned

    def redraw(self):
        """Draws all anew, on a terminal of the size that it has now; nothing where nothing was drawn."""
        self._close()
        if self._message:
            self._message.resize(self._wanted())
            if self._standing.news.startswith(b"! "):
                self._standing.news = self._page()
        if self._standing.news.startswith(b"? "):
            self._standing.news = self._asked()
        if self._standing.lines():
            self._open(self._wanted())

    def read(self, lines, events):
        """Shows pages of lines, and then again what stood before."""
        self._close()
        read_pages(lines, self._console, events)
        self.redraw()

    def leave(self, ending):
        """Shows what the run ends with, and leaves the cursor below it. The board isn't scrolled away for that."""
        if not self._standing.lines():
            return
        try:
            rows, columns = self._wanted()
            if self._view is None or self._size != (rows, columns) or self._is_full(ending):
                self._close()
                self._open((max(min(rows, self._console.size()[0] - 1), 1), columns))
            self._view.hand(ending)
            self._close()
        except Fault:
            self._give_up()

    def _give_up(self):
        """Leaves the terminal without a view."""
        self._view = None
        if self._standing.lines():
            self._console.leave_at(self._console.size()[0])

    def _is_full(self, ending):
        """Whether the rows that stand there leave no row for the cursor."""
        rows, columns = self._console.size()
        news = len(wrapped(ending.decode("utf-8", "replace").strip(), columns))
        return self._standing.height() + _LINES_BELOW + news >= rows

    def _page(self):
        return b"! " + self._message.page().encode("utf-8", "surrogateescape") + b"\n"

    def _asked(self):
        """The line of what was asked last. Where it is too long its beginning is shown: without that its end says nothing."""
        return f"? {beginning(self._question, self._wanted())}\n".encode()

    def _show_message(self):
        self._show_news(self._page())

    def _show_news(self, line):
        self._standing.news = line
        self._hand(line)

    def _hand(self, line):
        """Hands a line on; to a new view all that stands."""
        size = self._wanted()
        if self._view is not None and self._size != size:
            self._close()
        if self._view is None:
            self._open(size)
        else:
            self._view.hand(line)

    def _wanted(self):
        """The size for a view of what stands now: rows and columns."""
        rows, columns = self._console.size()
        is_high = self._standing.height() > rows - _LINES_BELOW - 1
        return (_WITHOUT_LINES if rows in _LOW and is_high else rows, columns)

    def _open(self, size):
        self._size = size
        self._view = View(self._player, self._game, size, self._console.screen)
        self._view.hand(self._standing.lines())

    def _close(self):
        """The view ends, once all is drawn that it was handed."""
        if self._view is not None:
            self._view.end()
            self._view = None
