"""Pages of lines."""
import unittest

from events import Event, Kind
from pages import read_pages
from typed_keys import Key

KEY = Event(Kind.KEY, Key.OTHER)


class FakeConsole:
    def __init__(self, *sizes):
        self.sizes, self.shown = list(sizes), []

    def size(self):
        return self.sizes.pop(0) if len(self.sizes) > 1 else self.sizes[0]

    def show_page(self, lines):
        self.shown.append(lines)

    def leave_page(self):
        self.shown.append(None)


class FakeEvents:
    def __init__(self, events):
        self.events = events

    def next(self):
        return self.events.pop(0)

    def stop(self):
        pass


class PagesTest(unittest.TestCase):
    def read(self, console, *events):
        read_pages(["a", "b", "c"], console, FakeEvents(list(events)))
        return console.shown

    def test_one_page(self):
        self.assertEqual(self.read(FakeConsole((24, 80)), KEY), [["a", "b", "c", "-- any key goes back --"], None])

    def test_pages(self):
        shown = self.read(FakeConsole((3, 80)), KEY, KEY)
        self.assertEqual(shown, [["a", "b", "-- any key goes on --"], ["c", "-- any key goes back --"], None])

    def test_lines_that_are_too_long(self):
        console = FakeConsole((24, 20))
        read_pages(["  a  one two three four five"], console, FakeEvents([KEY]))
        self.assertEqual(console.shown[0], ["  a  one two three", "    four five", "-- any key goes back --"])

    def test_drawn_anew(self):
        shown = self.read(FakeConsole((24, 80)), Event(Kind.DRAW, None), Event(Kind.STOP, None), KEY)
        page = ["a", "b", "c", "-- any key goes back --"]
        self.assertEqual(shown, [page, page, None, page, None])

    def test_fewer_pages_on_another_size(self):
        shown = self.read(FakeConsole((3, 80), (24, 80)), KEY)
        self.assertEqual(shown, [["a", "b", "-- any key goes on --"], None])


if __name__ == "__main__":
    unittest.main()
