"""How many columns of a terminal a text covers, and texts in rows of a given width."""
import unicodedata

MORE = "\u2026"
_SET_IN = "    "
# With less room than this a row set in would break most words.
_LEAST_ROOM = 10


def columns_of(character):
    """How many columns the character covers: 0, 1 or 2."""
    if character < "\u0300":
        return 1
    if unicodedata.category(character) in ("Mn", "Me", "Cf"):
        return 0
    return 2 if unicodedata.east_asian_width(character) in "WF" else 1


def fitting(text, columns):
    """How many of the first characters fit into a number of columns."""
    left = columns
    for place, character in enumerate(text):
        left -= columns_of(character)
        if left < 0:
            return place
    return len(text)


def cut(text, columns):
    """The text; where it has more columns than these, its beginning and a mark."""
    if fitting(text, columns) == len(text):
        return text
    return text[:fitting(text, columns - 1)] + MORE


def break_of(text, columns):
    """Where a text that is too long for a row is broken: after a blank, or else within a word."""
    room = fitting(text, columns)
    return text.rfind(" ", 0, room + 1) + 1 or max(room, 1)


def wrapped(text, columns):
    """The text in rows of at most `columns` columns, broken between words where that is possible."""
    rows = []
    while fitting(text, columns) < len(text):
        place = break_of(text, columns)
        rows.append(text[:place].rstrip(" "))
        text = text[place:]
    return rows + [text]


def hanging(text, columns):
    """The same, with all rows but the first set in. A text that begins with blanks keeps them."""
    room = columns - len(_SET_IN)
    if fitting(text, columns) == len(text) or room < _LEAST_ROOM:
        return [text]
    first, *others = wrapped(text.lstrip(" "), room)
    return [text[:len(text) - len(text.lstrip(" "))] + first, *(_SET_IN + row for row in others)]


def folded(text, columns):
    """The lines of a text, those that are too long in rows. Lines that begin with a blank stay, as marks may stand below their words."""
    return "\n".join(row for line in text.split("\n") for row in ([line] if line[:1] == " " else wrapped(line, columns)))


def width(text):
    """How many columns the text covers."""
    return sum(map(columns_of, text))
