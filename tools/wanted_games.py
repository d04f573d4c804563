"""Games with keys, and what must be written of each."""
import dataclasses
import pathlib

from crates import TOP

CASES = TOP / "crates/ps_cases"
DATA = CASES / "data"
PLAYED = "played as it must be"


@dataclasses.dataclass
class WantedGame:
    """A game in files: its text, its keys, and its output, or the line of its fault."""

    name: str
    game: pathlib.Path
    keys: pathlib.Path
    output: pathlib.Path
    fault: str | None

    def as_json(self):
        """The same for a program that reads JSON."""
        return {name: str(value) if isinstance(value, pathlib.Path) else value for name, value in vars(self).items()}


def wanted_of(game, name, fault):
    return WantedGame(name, game, game.with_suffix(".keys"), game.with_suffix(".stdout"), fault)


def of_gate():
    """The games of the gate. Other lines of its stored run are of outputs that differ on purpose."""
    for line in (CASES / "stdout").read_text().splitlines():
        name, _, said = line.partition(": ")
        if said == PLAYED or said.startswith("line "):
            yield wanted_of((DATA / f"{name}.game").resolve(), name, None if said == PLAYED else said)


def of_folder(folder):
    """The games of a folder of vectors."""
    for game in sorted(folder.resolve().glob("*.game")):
        told = game.with_suffix(".stderr")
        fault = told.read_text().strip() if told.exists() else ""
        yield wanted_of(game, game.stem, fault or None)
