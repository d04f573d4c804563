"""What the glyphs of a game are, and what the keys do."""
from harmless import harmless
from typed_keys import Key

_KEYS = [
    (None, "w a s d", "move, as the arrows do"),
    (Key.ACT, "x", "act"),
    (Key.UNDO, "z", "undo"),
    (Key.RESTART, "r", "restart the level"),
    (None, "x, Enter, space", "go on after a message"),
    (None, "q", "quit, when pressed twice"),
    (Key.HINT, "h", "say how the level goes on"),
    (None, "ctrl-L", "draw the screen anew"),
    (None, "?", "show this page"),
]


def lines(described, ignored, has_hints):
    """The lines of the page; keys that the game ignores are left out, and so is that of hints where there are none."""
    unknown = ignored if has_hints else [*ignored, Key.HINT]
    rows = [harmless(described.title), ""]
    rows += [f"  {harmless(glyph)}  {harmless(', '.join(objects))}" for glyph, objects in described.glyphs]
    rows.append("")
    rows += [f"  {key}  {use}" for named, key, use in _KEYS if named not in unknown]
    return rows
