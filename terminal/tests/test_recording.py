"""Keys that are kept in a file."""
import errno
import os
import pathlib
import tempfile
import unittest
from unittest import mock

from player import Fault, Player, Run
from recording import Recording

STAND_IN = str(pathlib.Path(__file__).with_name("stand_in.py"))
FULL = OSError(errno.ENOSPC, "No space left on device")


class RecordingTest(unittest.TestCase):
    def setUp(self):
        folder = tempfile.TemporaryDirectory()
        self.addCleanup(folder.cleanup)
        self.folder = pathlib.Path(folder.name)
        self.file = self.folder / "a.keys"

    def kept(self, keys, unread=0):
        """A recording of keys that has ended."""
        recording = Recording(str(self.file))
        for key in keys:
            recording.keep(key.encode())
        recording.end(unread)
        return recording

    def test_each_key_is_there_at_once(self):
        recording = Recording(str(self.file))
        for place, key in enumerate("wxz", 1):
            self.assertIsNone(recording.keep(key.encode()))
            self.assertEqual(self.file.read_text(), "wxz"[:place])
        recording.end(0)
        self.assertEqual(recording.told(), f"play: {self.file} has 3 keys\n")
        self.assertIsNone(recording.trouble)

    def test_keys_that_were_not_read_are_dropped(self):
        self.assertEqual(self.kept("wasd", 3).told(), f"play: {self.file} has 1 key\n")
        self.assertEqual(self.file.read_text(), "w")

    def test_keys_that_a_run_has_not_read(self):
        game = self.folder / "a.game"
        game.write_text("title T\n\n####\n#P.#\n####\n")
        run = Run(Player(STAND_IN), str(game))
        self.assertTrue(run.send(b"dqdd"))
        while os.read(run.output, 4096):
            pass
        self.assertEqual(run.unread(), 2)
        self.assertEqual(run.end(), (0, b""))

    def test_an_empty_file_is_taken(self):
        self.file.touch()
        self.kept("w")
        self.assertEqual(self.file.read_text(), "w")

    def test_no_other_file_is_written_over(self):
        self.file.write_text("wasd")
        (self.folder / "link").symlink_to(self.file)
        os.mkfifo(self.folder / "pipe")
        wrong = {"a.keys": "it isn't empty", "link": "it isn't empty", "pipe": "No such device", ".": "Is a directory",
                 "no/a.keys": "No such file", "/dev/null": "it is no regular file"}
        for name, why in wrong.items():
            with self.assertRaises(Fault) as raised:
                Recording(str(self.folder / name))
            self.assertIn(f": {why}".encode(), raised.exception.said)
            self.assertEqual(raised.exception.status, 1)
        self.assertEqual(self.file.read_text(), "wasd")

    def test_a_name_is_told_harmless(self):
        self.file = self.folder / "a\x1b[31m\u202e"
        self.assertEqual(self.kept("w").told(), f"play: {self.folder}/a·[31m· has 1 key\n")

    def test_after_a_key_that_can_t_be_kept_none_is(self):
        recording = Recording(str(self.file))
        self.assertIsNone(recording.keep(b"w"))
        with mock.patch("os.write", side_effect=FULL):
            self.assertEqual(recording.keep(b"a"), "Your keys are kept no longer: No space left on device.")
        self.assertIsNone(recording.keep(b"s"))
        recording.end(1)
        self.assertEqual(self.file.read_text(), "w")
        self.assertEqual(recording.told(), f"play: {self.file} has 1 of 2 keys: No space left on device\n")
        self.assertIsNotNone(recording.trouble)

    def test_a_file_that_is_deleted(self):
        recording = Recording(str(self.file))
        recording.keep(b"w")
        self.file.unlink()
        recording.end(0)
        self.assertEqual(recording.told(), f"play: {self.file} has 0 of 1 keys: it was deleted\n")

    def test_without_a_file_no_key_is_kept(self):
        recording = Recording()
        self.assertIsNone(recording.keep(b"w"))
        recording.end(0)
        self.assertEqual((recording.told(), recording.trouble), ("", None))


if __name__ == "__main__":
    unittest.main()
