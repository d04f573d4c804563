"""Joins modules of JavaScript to one script, so that a page is one file.

Each module becomes a function that gives what it exports. Lines of comments are left out, as a page is to be small. What a module may
have is plain: imports of names from other modules, one line each, and exports of functions, classes and constants where they are
declared.
"""
import json
import re

IMPORT = re.compile(r'^import \{ ([^}]*) \} from "(?:\.|\.\.)/(?:\w+/)*([\w.]+)";$', re.M)
WHERE = re.compile(r'^import .* from "([\w./]+)";$', re.M)
COMMENT = re.compile(r"^ *//.*\n", re.M)
EXPORT = re.compile(r"^export (?=(?:async )?(?:function\*?|class|const) (\w+))", re.M)


def in_order(file, made):
    """The file of a module and those of modules that it stands on, each after those that it stands on itself. Modules in `made` have
    no file, but a name."""
    order = []
    for other in [] if file.name in made else WHERE.findall(file.read_text()):
        order += [each for each in in_order((file.parent / other).resolve(), made) if each not in order]
    return [*order, file]


def as_function(name, text):
    """A module as a part of a script."""
    names = ", ".join(EXPORT.findall(text))
    body = EXPORT.sub("", IMPORT.sub(r'const { \1 } = modules["\2"];', COMMENT.sub("", text))).strip()
    return f'modules["{name}"] = (() => {{\n{body}\nreturn {{ {names} }};\n}})();\n'


def bundle(file, made=None):
    """The script of a module and of all that it stands on, whose names differ. `made` has texts of modules that have no file."""
    made = made or {}
    texts = [(each.name, made.get(each.name) or each.read_text()) for each in dict.fromkeys(in_order(file.resolve(), made))]
    return '"use strict";\nconst modules = {};\n' + "".join(as_function(*each) for each in texts)


def constants(**values):
    """The text of a module that exports constants."""
    return "".join(f"export const {name} = {in_script(value)};\n" for name, value in values.items())


def in_script(value):
    """A value as JSON that may stand in a script of a page: nothing in it ends the script."""
    return json.dumps(value).replace("<", "\\u003c")
