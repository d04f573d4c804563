"""The whole, on a terminal that is made here, with a stand-in for the player."""
import fcntl
import os
import pathlib
import pty
import signal
import struct
import subprocess
import sys
import tempfile
import termios
import threading
import time
import unittest

HERE = pathlib.Path(__file__).parent
STAND_IN = str(HERE / "stand_in.py")
MAIN = str(HERE.parent / "main.py")
GAME = """title Small\x1b]0;Bad\x07

######
#P..*#
######

#####
#P.*#
#####
"""


class Sitting:
    """A call of main.py at a terminal of 12 rows and 60 columns."""

    def __init__(self, folder, *words, stdin=None):
        self.master, self.slave = pty.openpty()
        fcntl.ioctl(self.slave, termios.TIOCSWINSZ, struct.pack("HHHH", 12, 60, 0, 0))
        self.before = termios.tcgetattr(self.slave)
        self.output = b""
        # Who changes the output.
        self.lock = threading.Lock()
        environment = dict(os.environ, XDG_STATE_HOME=folder)
        command = [sys.executable, "-I", "-S", MAIN, STAND_IN, *words]
        self.process = subprocess.Popen(
            command, stdin=self.slave if stdin is None else stdin, stdout=self.slave, stderr=self.slave,
            env=environment, preexec_fn=self._take_terminal)
        threading.Thread(target=self._read, daemon=True).start()

    def _take_terminal(self):
        # A shell lets the programs that it starts in the background ignore these, and nohup the first, as perhaps with this test.
        for number in (signal.SIGHUP, signal.SIGINT, signal.SIGQUIT):
            signal.signal(number, signal.SIG_DFL)
        os.setsid()
        fcntl.ioctl(self.slave, termios.TIOCSCTTY, 0)

    def _read(self):
        try:
            while True:
                data = os.read(self.master, 65536)
                with self.lock:
                    self.output += data
        except OSError:
            pass

    def wait_for(self, text, seconds=20.0):
        """Waits until the output has the text since the last call, and forgets it up to there."""
        end = time.monotonic() + seconds
        while text not in self.output:
            if time.monotonic() > end:
                raise AssertionError(f"{text!r} isn't in {self.output!r}")
            time.sleep(0.005)
        with self.lock:
            self.output = self.output.partition(text)[2]

    def type(self, keys):
        os.write(self.master, keys)

    def end(self):
        """Its status, and whether the terminal's attributes are as before."""
        code = self.process.wait(20)
        return code, termios.tcgetattr(self.slave) == self.before


class AtTerminalTest(unittest.TestCase):
    def setUp(self):
        folder = tempfile.TemporaryDirectory()
        self.addCleanup(folder.cleanup)
        self.folder = folder.name
        self.game = str(pathlib.Path(folder.name) / "small.game")
        pathlib.Path(self.game).write_text(GAME)

    def sit(self, *words, stdin=None):
        return Sitting(self.folder, *words, stdin=stdin)

    def test_a_game_from_its_beginning_to_its_end(self):
        sitting = self.sit(self.game)
        sitting.wait_for(b"#P..*#")
        sitting.wait_for(b"h gives a hint, ? lists signs and keys.")
        self.assertNotIn(b"\x07", sitting.output)
        sitting.type(b"D\x1b[C\x1bOC")
        sitting.wait_for(b"3 moves")
        sitting.wait_for(b"#P.*#")
        sitting.type(b"q")
        sitting.wait_for(b"Quit?")
        sitting.type(b"q")
        sitting.wait_for(b"* quit")
        sitting.wait_for(b"\x1b[?25h")
        self.assertEqual(sitting.end(), (0, True))
        sitting = self.sit(self.game)
        sitting.wait_for(b"You go on at level 2")
        sitting.type(b"dd")
        sitting.wait_for(b"* won")
        self.assertEqual(sitting.end(), (0, True))
        self.assertEqual(os.listdir(f"{self.folder}/lizhakoven/progress"), [])

    def ask_for(self, sitting, hint):
        """Asks for a hint, again where the machine is so busy that none comes in time."""
        for _ in range(20):
            sitting.type(b"h")
            try:
                return sitting.wait_for(hint, 1.0)
            except AssertionError:
                pass
        self.fail(f"{hint!r} isn't told")

    def test_a_hint_after_the_keys_so_far(self):
        sitting = self.sit(self.game)
        sitting.wait_for(b"#P..*#")
        self.ask_for(sitting, b"Press d: a win is 2 keys away.")
        sitting.type(b"d")
        sitting.wait_for(b"1 move")
        self.ask_for(sitting, b"Press d: a win is 3 keys away.")
        sitting.type(b"d")
        sitting.wait_for(b"2 moves")
        sitting.type(b"qq")
        sitting.wait_for(b"* quit")
        self.assertEqual(sitting.end(), (0, True))

    def record(self, *words):
        """A call that keeps keys, and the file that they are kept in."""
        file = pathlib.Path(self.folder) / "a.keys"
        return self.sit(self.game, "--record", str(file), *words), file

    def replayed(self, file):
        """The last line that a run writes on the keys of a file."""
        with open(file, "rb") as keys:
            return subprocess.run([STAND_IN, self.game], stdin=keys, capture_output=True).stdout.splitlines()[-1]

    def test_a_recording_has_the_keys_of_the_run(self):
        sitting, file = self.record()
        sitting.wait_for(b"your keys are kept in")
        sitting.type(b"D?")
        sitting.wait_for(b"any key goes on")
        sitting.type(b"x")
        sitting.wait_for(b"any key goes back")
        sitting.type(b"wp\x1b[Cd")
        sitting.wait_for(b"#P.*#")
        self.assertEqual(file.read_bytes(), b"ddd")
        sitting.type(b"dhdx")
        sitting.wait_for(b"* won")
        sitting.wait_for(b"a.keys has 5 keys\r\n")
        self.assertEqual(sitting.end(), (0, True))
        self.assertEqual(file.read_bytes(), b"ddddd")
        self.assertEqual(self.replayed(file), b"* won")

    def test_a_recording_begins_at_the_start(self):
        sitting = self.sit(self.game)
        sitting.type(b"ddd")
        sitting.wait_for(b"#P.*#")
        sitting.type(b"qq")
        self.assertEqual(sitting.end(), (0, True))
        sitting, file = self.record("--plain")
        sitting.wait_for(b"#P..*#")
        sitting.type(b"zqq")
        sitting.wait_for(b"a.keys has 2 keys\r\n")
        self.assertEqual(sitting.end(), (0, True))
        self.assertEqual(file.read_bytes(), b"zq")
        self.assertEqual(self.replayed(file), b"* quit")

    def test_a_recording_that_a_signal_ends(self):
        for number in (signal.SIGINT, signal.SIGHUP, signal.SIGKILL):
            sitting, file = self.record()
            sitting.wait_for(b"#P..*#")
            sitting.type(b"d")
            sitting.wait_for(b"1 move")
            sitting.process.send_signal(number)
            self.assertEqual(sitting.end()[0], -number)
            self.assertEqual(file.read_bytes(), b"d")
            file.unlink()

    def test_recordings_that_cannot_be(self):
        file = pathlib.Path(self.folder) / "a.keys"
        file.write_bytes(b"wasd")
        with open(self.game, "rb") as keys:
            sittings = [
                (self.sit("--record", str(file), self.game), b"name a new file", 1),
                (self.sit("--record", str(file), self.folder), b"is a folder", 2),
                (self.sit("--record", str(file), "--level", "2", self.game), b"from the start of the game", 2),
                (self.sit("--record", str(file), self.game, stdin=keys), b"keeps those of a pipe", 1),
            ]
        for sitting, said, status in sittings:
            sitting.wait_for(said)
            self.assertEqual(sitting.end(), (status, True))
        self.assertEqual(file.read_bytes(), b"wasd")

    def test_a_text_from_a_pipe(self):
        with open(self.game, "rb") as file:
            sitting = self.sit("-", "--plain", stdin=file)
        sitting.wait_for(b"= Small\xc2\xb7]0;Bad\xc2\xb7\r\n")
        sitting.wait_for(b"#P..*#")
        sitting.type(b"d")
        sitting.wait_for(b"#.P.*#")
        sitting.type(b"qq")
        sitting.wait_for(b"* quit")
        self.assertEqual(sitting.end(), (0, True))

    def test_signals_leave_the_terminal_as_it_was(self):
        numbers = (signal.SIGINT, signal.SIGTERM, signal.SIGQUIT)
        for sitting, number in [(self.sit(self.game), number) for number in numbers]:
            sitting.wait_for(b"#P..*#")
            sitting.process.send_signal(number)
            self.assertEqual(sitting.end(), (-number, True))
            sitting.wait_for(b"* interrupted")
            sitting.wait_for(b"\x1b[?25h")

    def test_a_fault_is_told_harmless(self):
        pathlib.Path(self.game).write_text("FAULT")
        sitting = self.sit(self.game)
        sitting.wait_for(b"line 1: TX1 Fault\r\n     1  FAULT \xc2\xb7[31m")
        self.assertEqual(sitting.end(), (1, True))

    def test_a_player_that_fails(self):
        pathlib.Path(self.game).write_text("title T\n\n####\n#Pf#\n####\n")
        sitting = self.sit(self.game)
        sitting.wait_for(b"#Pf#")
        sitting.type(b"d")
        sitting.wait_for(b"* broken off")
        sitting.wait_for(b"cannot go on \xc2\xb7[31m")
        self.assertEqual(sitting.end(), (1, True))

    def test_a_folder(self):
        sitting = self.sit(self.folder)
        sitting.wait_for(b"> small.game")
        sitting.type(b"\r")
        sitting.wait_for(b"#P..*#")
        sitting.type(b"qq")
        sitting.wait_for(b"Any key leads back")
        sitting.type(b"k")
        sitting.wait_for(b"> small.game")
        sitting.type(b"q")
        self.assertEqual(sitting.end(), (0, True))


if __name__ == "__main__":
    unittest.main()
