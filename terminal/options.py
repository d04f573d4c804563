"""The command line."""
import collections

from harmless import name_text

Options = collections.namedtuple("Options", "player game is_plain is_traced is_fresh level record")

USAGE = "usage: main.py PLAYER [--plain] [--trace] [--fresh] [--level N] [--record FILE] GAME|FOLDER"


class BadCommandLine(Exception):
    """The command line can't be obeyed: why."""


def _level(word):
    """The number of a level."""
    if not (word.isascii() and word.isdigit() and int(word) > 0):
        raise BadCommandLine(f"--level takes a number from 1 on, and not {name_text(word)}")
    return int(word)


def _file(word):
    """The name of a file in which keys are kept."""
    if word in ("", "-"):
        raise BadCommandLine("--record takes the name of a file")
    return word


_VALUES = {"--level": _level, "--record": _file}


def read_options(words):
    """What the words ask for; raises BadCommandLine."""
    rest, files, values = list(words), [], {}
    is_plain, is_traced, is_fresh = False, False, False
    while rest:
        word = rest.pop(0)
        name, is_joined, value = word.partition("=")
        if word == "--":
            files, rest = files + rest, []
        elif word == "--plain":
            is_plain = True
        elif word == "--trace":
            is_plain, is_traced = True, True
        elif word == "--fresh":
            is_fresh = True
        elif name in values:
            raise BadCommandLine(f"{name} is given twice")
        elif name in _VALUES:
            values[name] = _VALUES[name](value if is_joined or not rest else rest.pop(0))
        elif word.startswith("-") and word != "-":
            raise BadCommandLine(f"there is no option {name_text(word)}")
        else:
            files.append(word)
    if len(files) != 2:
        raise BadCommandLine(USAGE)
    if len(values) == 2:
        raise BadCommandLine("--record doesn't go with --level: recorded keys are replayed from the start of the game")
    return Options(*files, is_plain, is_traced, is_fresh, values.get("--level"), values.get("--record"))
