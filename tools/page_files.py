"""The files of a page: what stands in page/, with an engine and with games put in.

A policy in each page lets a browser run no other script and no other style, and load nothing from elsewhere.
"""
import base64
import dataclasses
import hashlib
import html
import pathlib
import re

from bundle import bundle, constants, in_script
from crates import TOP
from engine import packed
from letters import letters_of

PAGE = TOP / "page"
PLACE = re.compile(r"\{\{(\w+)\}\}")


@dataclasses.dataclass
class Game:
    """A game of a page: its name in addresses, its title, and the bytes of its text."""

    name: str
    title: str
    text: bytes

    def told(self):
        """What the page knows of it. The text is in base64, so that nothing of it means anything to a browser."""
        return {"name": self.name, "title": self.title, "text": base64.b64encode(self.text).decode()}


@dataclasses.dataclass
class Part:
    """A script or a style: its text, how it stands in a page, and as what a policy knows it."""

    text: str
    ending: str

    def name(self):
        """The name of the file that several pages share. It changes with the text, so that a browser may keep it for ever."""
        return f"player-{hashlib.sha256(self.text.encode()).hexdigest()[:16]}.{self.ending}"

    def allowed(self):
        """The word by which a policy allows exactly this text."""
        return "'sha256-{}'".format(base64.b64encode(hashlib.sha256(self.text.encode()).digest()).decode())

    def within(self):
        """It as it stands in a page."""
        tag = "script" if self.ending == "js" else "style"
        return f"<{tag}>{self.text}</{tag}>"

    def beside(self):
        """The line that calls for it from a file beside the page."""
        return f'<script src="{self.name()}"></script>' if self.ending == "js" else f'<link rel="stylesheet" href="{self.name()}">'


def engine_constants(engine):
    """The engine as constants of a module."""
    return constants(ENGINE=letters_of(packed(engine)), ENGINE_LENGTH=len(engine))


def script_of(engine):
    """The script of pages, with the engine in it."""
    worker = bundle(PAGE / "src/worker.mjs")
    return Part("\n" + bundle(PAGE / "src/main.mjs", {"parts.mjs": constants(WORKER=worker) + engine_constants(engine)}), "js")


def style():
    return Part("\n" + (PAGE / "style.css").read_text(), "css")


def policy(script, look):
    """What a page allows its browser: this script and style, the engine, and a worker that the script makes."""
    return (f"default-src 'none'; script-src {script} 'wasm-unsafe-eval'; style-src {look}; worker-src blob:; "
            "base-uri 'none'; form-action 'none'")


def filled(**values):
    """The template with these values at their places."""
    return PLACE.sub(lambda found: values[found[1]], (PAGE / "template.html").read_text())


def title_of(games, title):
    return games[0].title if len(games) == 1 else title


def page_of(games, title, script, look, is_whole):
    """A page of these games."""
    allowed = [part.allowed() if is_whole else "'self'" for part in (script, look)]
    return filled(
        policy=html.escape(policy(*allowed)).replace("&#x27;", "'"),
        title=html.escape(title_of(games, title)),
        style=look.within() if is_whole else look.beside(),
        script=script.within() if is_whole else script.beside(),
        games=in_script([game.told() for game in games]),
    )


def whole(engine, games, title):
    """The page that has all in it."""
    return page_of(games, title, script_of(engine), style(), True)


def list_of(games, title):
    """The page that leads to those of the games."""
    items = "".join(f'<li><a href="{game.name}.html">{html.escape(game.title)}</a></li>\n' for game in games)
    return filled_list(title, items)


def filled_list(title, items):
    text = (PAGE / "list.html").read_text()
    look = style()
    values = {"title": html.escape(title), "games": items, "style": look.beside(), "policy": "default-src 'none'; style-src 'self'"}
    return PLACE.sub(lambda found: values[found[1]], text)


def apart(engine, games, title):
    """The names and texts of a page for each game, of a list of them, and of what they share."""
    script, look = script_of(engine), style()
    yield script.name(), script.text
    yield look.name(), look.text
    yield "index.html", list_of(games, title)
    for game in games:
        yield f"{game.name}.html", page_of([game], title, script, look, False)
