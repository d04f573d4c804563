"""Pages of lines, which are left by a key."""
from events import Kind
from widths import hanging

_FURTHER = "-- any key goes on --"
_BACK = "-- any key goes back --"


def _pages(lines, size):
    """The lines in pieces for a terminal of that size (rows, columns), each with a last line that says what a key does."""
    most = max(size[0] - 1, 1)
    rows = [row for line in lines for row in hanging(line, size[1])]
    pieces = [rows[place:place + most] for place in range(0, len(rows), most)] or [[]]
    return [piece + [_FURTHER] for piece in pieces[:-1]] + [pieces[-1] + [_BACK]]


def read_pages(lines, console, events):
    """Shows the lines, a page after the other, each until a key comes; the screen is clear then."""
    place, pages = 0, _pages(lines, console.size())
    while place < len(pages):
        console.show_page(pages[place])
        place += _is_left(console, events)
        pages = _pages(lines, console.size())
    console.leave_page()


def _is_left(console, events):
    """Whether a page is left; it isn't where it must be drawn anew."""
    kind = events.next().kind
    if kind is Kind.STOP:
        console.leave_page()
        events.stop()
    return kind is Kind.KEY
