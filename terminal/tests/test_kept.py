"""What is kept and chosen: progress, command lines, the list of a folder's games."""
import os
import pathlib
import tempfile
import unittest
from unittest import mock

from events import Event, Kind
from game_list import GameList, games_of
from game_text import GameText
from options import BadCommandLine, Options, read_options
from player import Player
from progress import Progress
from typed_keys import Key

STAND_IN = str(pathlib.Path(__file__).with_name("stand_in.py"))


class ProgressTest(unittest.TestCase):
    def setUp(self):
        self.folder = tempfile.TemporaryDirectory()
        self.addCleanup(self.folder.cleanup)
        self.set_state(self.folder.name)

    def set_state(self, path):
        patch = mock.patch.dict(os.environ, {"XDG_STATE_HOME": path, "HOME": path})
        patch.start()
        self.addCleanup(patch.stop)

    def test_the_furthest_level_is_kept(self):
        Progress("ab").reached(3)
        Progress("ab").reached(2)
        self.assertEqual(Progress("ab").level(5), 3)
        self.assertEqual(Progress("cd").level(5), 1)
        self.assertEqual(os.listdir(f"{self.folder.name}/lizhakoven/progress"), ["ab"])

    def test_a_won_game_begins_anew(self):
        progress = Progress("ab")
        progress.reached(3)
        progress.won()
        self.assertEqual(Progress("ab").level(5), 1)

    def test_what_can_t_be_is_passed_over(self):
        Progress("ab").reached(9)
        self.assertEqual(Progress("ab").level(5), 1)
        pathlib.Path(f"{self.folder.name}/lizhakoven/progress/ab").write_text("x\x1b")
        self.assertEqual(Progress("ab").level(5), 1)

    def test_without_a_folder_nothing_is_kept(self):
        self.set_state("/dev/null")
        progress = Progress("ab")
        progress.reached(3)
        progress.won()
        self.assertEqual(Progress("ab").level(5), 1)


class OptionsTest(unittest.TestCase):
    def test_options_in_any_order(self):
        self.assertEqual(read_options(["P", "G"]), Options("P", "G", False, False, False, None, None))
        self.assertEqual(read_options(["P", "--fresh", "G", "--level", "3"]), Options("P", "G", False, False, True, 3, None))
        self.assertEqual(read_options(["P", "--plain", "--level=2", "-"]), Options("P", "-", True, False, False, 2, None))
        self.assertEqual(read_options(["P", "--trace", "G"]), Options("P", "G", True, True, False, None, None))
        self.assertEqual(read_options(["P", "--", "--plain"]), Options("P", "--plain", False, False, False, None, None))
        self.assertEqual(read_options(["P", "G", "--record", "-k=v"]), Options("P", "G", False, False, False, None, "-k=v"))
        self.assertEqual(read_options(["P", "--record=a=b", "G"]), Options("P", "G", False, False, False, None, "a=b"))

    def test_bad_command_lines(self):
        for line in ("", "P", "P G H", "P --bogus G", "P --level 0 G", "P G --level", "P --level 1 --level 2 G",
                     "P G --record", "P G --record=", "P G --record -", "P --record a --record b G", "P --record a --level 2 G"):
            with self.assertRaises(BadCommandLine, msg=line):
                read_options(line.split())


class GameTextTest(unittest.TestCase):
    def test_a_copy_is_deleted_at_the_end(self):
        with tempfile.NamedTemporaryFile() as file:
            file.write(b"title T\xff")
            file.flush()
            with GameText(file.name) as text:
                self.assertEqual(pathlib.Path(text.path).read_bytes(), b"title T\xff")
                self.assertEqual(len(text.digest), 64)
        self.assertFalse(os.path.exists(text.path))


class FakeEvents:
    def __init__(self, keys):
        self.keys = keys

    def next(self):
        return Event(Kind.KEY, self.keys.pop(0))


class GameListTest(unittest.TestCase):
    def setUp(self):
        folder = tempfile.TemporaryDirectory()
        self.addCleanup(folder.cleanup)
        self.folder = pathlib.Path(folder.name)

    def fill(self, **texts):
        for name, text in texts.items():
            (self.folder / f"{name}.game").write_text(text)

    def listed(self):
        return GameList(str(self.folder), Player(STAND_IN))

    def test_games_and_titles(self):
        self.fill(b="title B\x1b[31m\u202e", a="FAULT")
        (self.folder / "c.html").write_text("title C")
        (self.folder / "d\x1b.txt").write_text("title D")
        self.assertEqual(games_of(self.folder), ["a.game", "b.game", "d\x1b.txt"])
        rows = self.listed().rows(24, 80)[2:]
        self.assertEqual([row.split() for row in rows], [
            [">", "a.game", "(line", "1:", "TX1", "Fault)"], ["b.game", "B·[31m·"], ["d·.txt", "D"]])

    def test_the_list_scrolls(self):
        self.fill(**{f"g{number}": "FAULT" for number in range(5)})
        listed = self.listed()
        listed._title = lambda place: ""
        for _ in range(9):
            listed._move(1)
        self.assertEqual([row.split() for row in listed.rows(5, 80)[2:]], [["g2.game"], ["g3.game"], [">", "g4.game"]])
        self.assertEqual([row.split() for row in listed.rows(1, 80)], [[">", "g4.game"]])
        listed._move(-3)
        self.assertEqual(listed.rows(5, 80)[2].split(), [">", "g1.game"])

    def test_a_narrow_terminal(self):
        self.fill(ab="title A", c="title C")
        rows = self.listed().rows(12, 40)
        self.assertEqual(rows[:3], ["w s or the arrows choose a game, Enter", "plays it, q leaves.", ""])
        self.assertEqual(rows[3:], ["> ab.game  A", "  c.game   C"])
        self.assertEqual(self.listed().rows(3, 40), ["> ab.game  A", "  c.game   C"])

    def test_choosing(self):
        self.fill(a="FAULT", b="FAULT")
        listed, console = self.listed(), mock.Mock(size=lambda: (24, 80))
        self.assertEqual(listed.choose(console, FakeEvents([Key.DOWN, Key.ENTER])), str(self.folder / "b.game"))
        self.assertEqual(listed.choose(console, FakeEvents([Key.UP, Key.OTHER, Key.ENTER])), str(self.folder / "a.game"))
        self.assertIsNone(listed.choose(console, FakeEvents([Key.QUIT])))

    def test_a_list_that_is_longer_than_the_screen(self):
        self.fill(**{f"g{number}": "FAULT" for number in range(9)})
        listed, console = self.listed(), mock.Mock(size=lambda: (5, 80))
        self.assertIn("page keys", listed.rows(5, 80)[0])
        self.assertIn(" 1 of 9", listed.rows(5, 80)[0])
        for keys, name in (([Key.PAGE_DOWN], "g3"), ([Key.LAST], "g8"), ([Key.PAGE_UP], "g5"), ([Key.FIRST, Key.DOWN], "g1")):
            chosen = listed.choose(console, FakeEvents([*keys, Key.ENTER]))
            self.assertEqual(chosen, str(self.folder / f"{name}.game"), keys)

    def test_no_game(self):
        self.assertIn("no game here", self.listed().rows(24, 80)[-1])


if __name__ == "__main__":
    unittest.main()
