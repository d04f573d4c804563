"""The crates of this repository, on what each stands, and how long its check takes."""
import pathlib

TOP = pathlib.Path(__file__).resolve().parent.parent

# How many bytes of a crate are proved in a minute, by which the time of a new one is guessed.
BYTES_OF_A_MINUTE = 60000


def read_uses(top=TOP):
    """Of each crate in crates.txt the names of those that it stands on, its own and the toolchain's."""
    lines = [line.partition("#")[0].partition(":") for line in (top / "crates.txt").read_text().splitlines()]
    return {name.split()[0]: rest.split() for name, colon, rest in lines if colon}


def read_minutes(top=TOP):
    """Of each crate in tools/minutes how many processor minutes its check takes."""
    lines = [line.partition("#")[0].split() for line in (top / "tools" / "minutes").read_text().splitlines()]
    return {words[0]: float(words[1]) for words in lines if words}


def size_of(crate, top=TOP):
    """How many bytes are proved of a crate."""
    parts = [top / "crates" / crate / part for part in ("src", "specs", "proofs")]
    return sum(file.stat().st_size for part in parts for file in part.rglob("*.*t"))


def minutes_of(crate, known):
    """How many minutes the check of a crate takes, by those that are known, or as its size tells."""
    return known.get(crate) or size_of(crate) / BYTES_OF_A_MINUTE


def in_order(names, uses):
    """These crates and those of this repository that they stand on, each after those that it stands on itself."""
    order = []
    for name in names:
        if name in uses:
            order += [crate for crate in [*in_order(uses[name], uses), name] if crate not in order]
    return order


def below(crate, uses):
    """The crates of this repository that one stands on, each after those that it stands on itself."""
    return tuple(in_order(uses[crate], uses))
