"""Games whose keys come from standard input, on a terminal that is made here."""
import os
import pathlib
import subprocess
import sys
import tempfile
import unittest

from tests.test_at_terminal import GAME, MAIN, STAND_IN, Sitting


class StreamingTest(unittest.TestCase):
    def setUp(self):
        folder = tempfile.TemporaryDirectory()
        self.addCleanup(folder.cleanup)
        self.folder = folder.name
        self.game = str(pathlib.Path(folder.name) / "small.game")
        pathlib.Path(self.game).write_text(GAME)

    def keys(self, data):
        reader, writer = os.pipe()
        os.write(writer, data)
        os.close(writer)
        file = os.fdopen(reader)
        self.addCleanup(file.close)
        return file

    def test_output_on_a_terminal_is_harmless(self):
        sitting = Sitting(self.folder, "--plain", self.game, stdin=self.keys(b"dq"))
        sitting.wait_for(b"= Small\xc2\xb7]0;Bad\xc2\xb7\r\n")
        sitting.wait_for(b"#.P.*#\r\n")
        sitting.wait_for(b"* quit\r\n")
        self.assertEqual(sitting.end(), (0, True))

    def test_a_fault_is_told(self):
        pathlib.Path(self.game).write_text("FAULT")
        sitting = Sitting(self.folder, self.game, stdin=self.keys(b""))
        sitting.wait_for(b"line 1: TX1 Fault")
        self.assertEqual(sitting.end(), (1, True))

    def test_without_a_terminal_the_output_is_as_it_is(self):
        told = subprocess.run(
            [sys.executable, "-I", MAIN, STAND_IN, self.game], input=b"q", stdout=subprocess.PIPE, check=True)
        self.assertTrue(told.stdout.startswith(b"= Small\x1b]0;Bad\x07\n"))


if __name__ == "__main__":
    unittest.main()
