"""Messages that are longer than the terminal has room for come in pages."""
from widths import break_of, cut, fitting, wrapped

_MARK = "! "
_GO_ON = " [x]"
# With less room than this no page would show a word.
_LEAST_ROOM = 12


def room_below(rows):
    """How many rows a terminal of that height has for what is told last."""
    return rows - 6 if rows >= 8 else (rows + 1) // 2


def beginning(text, size):
    """The text; where a terminal of that size (rows, columns) has no room for it, what fits of its beginning, and a mark."""
    rows, columns = room_below(size[0]), size[1]
    if len(wrapped(text, columns)) <= rows:
        return text
    rest = text
    for _ in range(rows - 1):
        rest = rest[break_of(rest, columns):]
    return text[:len(text) - len(rest)] + cut(rest, columns)


def _is_too_long(text, rows, columns):
    return len(wrapped(_MARK + text + _GO_ON, columns)) > rows


def _first_page(text, rows, columns):
    """How many characters of a text that is too long its first page has."""
    rest = _MARK + text
    for _ in range(rows):
        if fitting(rest, columns) == len(rest):
            rest = ""
        else:
            rest = rest[break_of(rest, columns):]
    end = len(text) - len(rest)
    while end > 1 and _is_too_long(text[:end].rstrip(" "), rows, columns):
        blank = text.rfind(" ", 0, end - 1)
        end = blank + 1 if blank > 0 else end - 1
    return max(end, 1)


def page_starts(text, size):
    """Where the pages of a message begin, on a terminal of that size (rows, columns)."""
    rows, columns = room_below(size[0]), size[1]
    starts = [0]
    if rows * columns < _LEAST_ROOM:
        return starts
    while _is_too_long(text[starts[-1]:], rows, columns):
        starts.append(starts[-1] + _first_page(text[starts[-1]:], rows, columns))
    return starts


class Message:
    """A message of the game, and the page of it that is shown."""

    def __init__(self, text, size):
        self._text = text
        self._start = 0
        self.resize(size)

    def resize(self, size):
        """The terminal has another size: the page with the first character of the last one is shown."""
        self._starts = page_starts(self._text, size)
        self._start = max(start for start in self._starts if start <= self._start)

    def turn_page(self):
        """Goes to the next page. Whether there is one."""
        further = [start for start in self._starts if start > self._start]
        if further:
            self._start = further[0]
        return bool(further)

    def page(self):
        """The text of the page that is shown."""
        ends = [start for start in self._starts if start > self._start]
        return self._text[self._start:ends[0]].rstrip(" ") if ends else self._text[self._start:]
