"""Games whose keys aren't typed: they are the bytes of standard input, and the player plays by itself."""
import codecs
import os
import signal
import subprocess

from console import Console
from game_text import GameText
from harmless import harmless_lines
from player import Fault, Player, status_of
from signals import DEADLY, Killed

_MOST_BYTES = 65536


def hand_over(asked):
    """Plays by keys of standard input. The status, and what was said on standard error."""
    if asked.record is not None:
        raise Fault(b"play: --record keeps keys that are typed at a terminal; tee FILE keeps those of a pipe\n", 1)
    if os.path.isdir(asked.game):
        raise Fault(b"play: a game of a folder is chosen at a terminal\n", 1)
    further = [] if asked.level is None else ["--level", str(asked.level)]
    further += ["--trace"] if asked.is_traced else []
    if not os.isatty(1):
        os.execv(asked.player, [asked.player, *further, "--", asked.game])
    with GameText(asked.game) as text:
        Player(asked.player).describe(text.path)
        words = [asked.player, text.path, *further]
        return _stream(words) if asked.is_plain else _show(words, Console(0, 1))


def _stream(words):
    """Writes the output as it comes, harmless."""
    process = subprocess.Popen(words, stdout=subprocess.PIPE, stderr=subprocess.PIPE, bufsize=0)
    decoder = codecs.getincrementaldecoder("utf-8")("replace")
    console = Console(0, 1)
    data = b"begun"
    while data:
        data = os.read(process.stdout.fileno(), _MOST_BYTES)
        console.write(harmless_lines(decoder.decode(data, not data)))
    return _end(process)


def _show(words, console):
    """Shows the board in place. A signal that ends this program ends the player first, and the cursor is shown then."""
    process = subprocess.Popen(words + ["--view", "{}x{}".format(*console.size())], stderr=subprocess.PIPE, bufsize=0)

    def forward(number, _):
        """The player is sent the signal."""
        process.send_signal(number)

    for number in DEADLY:
        if signal.getsignal(number) != signal.SIG_IGN:
            signal.signal(number, forward)
    status, said = _end(process)
    if process.returncode != 0:
        console.leave_at(console.size()[0])
    if -process.returncode in DEADLY:
        raise Killed(-process.returncode)
    return status, said


def _end(process):
    """The status of the player, and what it said on standard error."""
    said = process.stderr.read()
    return status_of(process.wait()), said
