"""Figures that documents tell and that can be counted here.

In a figure of FIGURES, `#` stands for the number; the words around it are those of a document, a line end being a blank.
"""
import re

from crates import TOP

CASES = TOP / "crates/ps_cases"


def games_of(folders):
    """How many games of these folders of ps_cases are played or refused."""
    names = (line.partition("/")[0] for line in (CASES / "stdout").read_text().splitlines()
             if re.search(r": (?:played as it must be|line \d+: \w+ \w+)$", line))
    return sum(name in folders for name in names)


def all_games():
    return games_of([folder.name for folder in (CASES / "data").iterdir()])


def rows():
    """The rows of ps_examples, each a lemma whose proof is `refl`."""
    return sum(len(re.findall(r"= refl$", file.read_text(), re.M)) for file in (TOP / "crates/ps_examples/proofs").rglob("*.antt"))


def chosen_games():
    return len((TOP / "tools/chosen_games").read_text().split())


def must_fail_edits():
    return len(list(TOP.glob("crates/*/must-fail/*.edit")))


def details():
    return len(list((TOP / "tools/details").glob("*.game")))


def not_allowed():
    """The kinds of runs that the law `runs_not_allowed` refuses, a clause each."""
    text = (TOP / "crates/ps_laws/src/laws_of_runs.rt").read_text()
    return len(re.findall("ensures", text.partition("fn runs_not_allowed()")[2].partition("{}")[0]))


FIGURES = {
    "the # games of the gate": all_games,
    "# rows that are evaluated": rows,
    "# games that other programs played": chosen_games,
    "# edits in `must-fail/`": must_fail_edits,
    "# texts of `tools/details`": details,
    "# kinds of runs that must not be": not_allowed,
}


def table_of_games(page):
    """A line for each row of a page's table of games whose number isn't that of the games in its folders."""
    told = set()
    table = page.read_text().partition("| Folders | Games |")[2].partition("\n\n")[0]
    for row in table.splitlines()[2:]:
        cells = [cell.strip() for cell in row.strip("|").split("|")]
        folders = re.findall(r"`(\w+)`", cells[0])
        told.update(folders)
        if int(cells[1].replace(",", "")) != games_of(folders):
            yield f"{page.name}: {', '.join(folders)}: {cells[1]} games, where {games_of(folders)} are counted"
    there = {folder.name for folder in (CASES / "data").iterdir() if folder.is_dir() and games_of([folder.name])}
    yield from (f"{page.name}: no row of games tells of {name}" for name in sorted(there - told))
    yield from (f"{page.name}: there are no games {name}" for name in sorted(told - there))
