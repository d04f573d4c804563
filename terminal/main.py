"""Plays a game at a terminal: main.py PLAYER [--plain] [--trace] [--fresh] [--level N] [--record FILE] GAME|FOLDER."""
import os
import sys

sys.path.insert(0, os.path.dirname(os.path.realpath(__file__)))

from harmless import decoded, harmless_lines, name_text  # noqa: E402
from options import BadCommandLine, read_options  # noqa: E402
from player import Fault  # noqa: E402
from signals import Killed, die_by, raise_killed  # noqa: E402
from sitting import Sitting  # noqa: E402
from streaming import hand_over  # noqa: E402
from widths import folded  # noqa: E402

_KEYS, _SCREEN, _ERRORS = 0, 1, 2


def tell(said):
    """Tells a text on standard error, of which the terminal takes nothing as an order. Long lines are broken between words there."""
    said = harmless_lines(said)
    try:
        said = folded(said, os.get_terminal_size(_ERRORS).columns or len(said)) if os.isatty(_ERRORS) else said
        os.write(_ERRORS, said.encode("utf-8", "replace"))
    except OSError:
        pass  # The terminal is gone.


def keys_typed():
    """The descriptor at which keys are typed: that of the terminal itself, where standard input has the text."""
    if os.isatty(_KEYS):
        return _KEYS
    try:
        return os.open("/dev/tty", os.O_RDONLY)
    except OSError as error:
        raise Fault(b"play: there is no terminal at which keys are typed\n", 1) from error


def obey(asked):
    """Does what the command line asks for. The status of the call, and what is told on standard error."""
    is_typed = os.isatty(_KEYS) or asked.game == "-"
    is_folder = os.path.isdir(asked.game)
    if asked.record is not None and is_folder:
        raise BadCommandLine(f"--record keeps the keys of one game, and {name_text(asked.game)} is a folder")
    if not (is_typed and os.isatty(_SCREEN)):
        return hand_over(asked)
    if asked.game == "-" and os.isatty(_KEYS):
        tell("play: type the text of a game, and ctrl-D below it\n")
    sitting = Sitting(asked, keys_typed(), _SCREEN)
    return sitting.play_folder() if is_folder else play(sitting)


def play(sitting):
    """Plays a game, and tells what became of its recording, however it ends."""
    try:
        return sitting.play_game()
    finally:
        tell(sitting.recording.told())


def main(words):
    """Obeys a command line. The status of the call."""
    try:
        status, said = obey(read_options(words))
    except BadCommandLine as why:
        status, said = 2, f"play: {why}\n".encode()
    except Fault as fault:
        status, said = fault.status, fault.said
    except OSError as error:
        of = f"{name_text(error.filename)}: " if error.filename else ""
        status, said = 1, f"play: cannot read game: {of}{error.strerror}\n".encode()
    tell(decoded(said))
    return status


if __name__ == "__main__":
    try:
        raise_killed()
        sys.exit(main(sys.argv[1:]))
    except Killed as killed:
        die_by(killed.number)
