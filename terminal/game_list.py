"""The games of a folder, in a list in which one is chosen."""
import os

from events import Kind
from game_text import GameText
from harmless import decoded, harmless, name_text
from player import Fault
from typed_keys import Key
from widths import width, wrapped

_HEAD = "w s or the arrows choose a game, Enter plays it, q leaves."
# What stands there instead where the list is longer than the screen.
_LONG_HEAD = "w s, arrows or page keys choose a game, Enter plays, q leaves. {:,} of {:,}"
_NONE = "There is no game here: no file ends with .game or .txt."
# How many columns the names have at most, before the titles.
_MOST_OF_NAMES = 24
_STEPS = {Key.UP: -1, Key.DOWN: 1}
_PAGES = {Key.PAGE_UP: -1, Key.PAGE_DOWN: 1}
_ENDINGS = (".game", ".txt")


def games_of(folder):
    """The names of the games in a folder, sorted."""
    return sorted(
        name for name in os.listdir(folder)
        if name.endswith(_ENDINGS) and os.path.isfile(os.path.join(folder, name))
    )


class GameList:
    """The list of a folder's games, which remembers what was chosen and how the games are titled."""

    def __init__(self, folder, player):
        self._folder = folder
        self._player = player
        self._names = games_of(folder)
        widest = max((width(name_text(name)) for name in self._names), default=0)
        self._title_column = min(widest + 2, _MOST_OF_NAMES)
        self._titles = {}
        self._chosen = 0
        self._top = 0
        # How many games the screen has room for.
        self._room = 1

    def choose(self, console, events):
        """Shows the list until a game is chosen, and answers its path; None where the list is left."""
        while True:
            console.show_page(self.rows(*console.size()))
            event = events.next()
            if event.kind is Kind.STOP:
                console.leave_page()
                events.stop()
            elif event.value is Key.QUIT:
                return None
            elif event.value in (Key.ENTER, Key.SPACE, Key.ACT) and self._names:
                return os.path.join(self._folder, self._names[self._chosen])
            else:
                self._move(self._steps(event.value))

    def rows(self, rows, columns):
        """The rows of the screen: the head, and below it as much of the list as has room."""
        head = self._head(rows, columns)
        self._room = room = rows - len(head)
        self._top = min(max(self._top, self._chosen - room + 1), self._chosen)
        places = range(self._top, min(self._top + room, len(self._names)))
        return head + ([self._row(place) for place in places] or wrapped(_NONE, columns))

    def _head(self, rows, columns):
        """The rows above the list, if there is room for them."""
        head = [*wrapped(_HEAD, columns), ""]
        if len(self._names) > rows - len(head):
            head = [*wrapped(_LONG_HEAD.format(self._chosen + 1, len(self._names)), columns), ""]
        return head if rows > len(head) else []

    def _steps(self, key):
        """How many games further a key goes; none for a key that isn't for that."""
        if key in _PAGES:
            return _PAGES[key] * self._room
        ends = {Key.FIRST: -len(self._names), Key.LAST: len(self._names)}
        return _STEPS.get(key) or ends.get(key, 0)

    def _move(self, step):
        self._chosen = min(max(self._chosen + step, 0), max(len(self._names) - 1, 0))

    def _row(self, place):
        """A game: a mark where it is the chosen one, its file and its title."""
        name = name_text(self._names[place])
        blanks = " " * max(self._title_column - width(name), 2)
        return f"{'>' if place == self._chosen else ' '} {name}{blanks}{self._title(place)}"

    def _title(self, place):
        """The title of a game, or which fault it has. It is asked for when it is first shown."""
        if place not in self._titles:
            try:
                with GameText(os.path.join(self._folder, self._names[place])) as text:
                    self._titles[place] = harmless(self._player.describe(text.path).title)
            except Fault as fault:
                self._titles[place] = f"({harmless(decoded(fault.said).partition(chr(10))[0])})"
            except OSError as error:
                self._titles[place] = f"(cannot be read: {error.strerror})"
        return self._titles[place]
