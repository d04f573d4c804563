"""Cuts the text of an LLVM module into parts that compilers can work on side by side.

By its calls a program is a tree of dominators: below a function stands what it alone leads to. A part is a subtree that is large
enough to be worth a compiler of its own, so parts call one another through few functions. Functions of a moderate size that
several parts call stand in each of them, where they can be put in line.
"""
import dataclasses
import re

# How many lines a subtree has at least that is a part.
LEAST_PART = 45_000
# How many lines a function has at most that stands in each part that calls it: a part that plays keys, and another one. With fewer a
# key costs up to a half more, and a start up to a tenth.
MOST_COPIED_AT_PLAY = 600
MOST_COPIED = 300
# The crates of which no function is called for a key, or for the first frame of a level.
NOT_AT_PLAY = re.compile(r'"(clap|ps_(causes|check|compile|describe|game|levels|names|report|rules|why)|ps_command::(acts|command|details|report_options|reporting))::')
ROOT = "main"
NAME = re.compile(r'@("[^"]*"|[\w.$-]+)')
# A function, or a value, that a module keeps to itself, and a value that changes.
OWN = re.compile(r"^(define|@[^=]* =) (?:internal|private) ")
CHANGES = re.compile(r"^@[^=]* = (?:\w+ )*?global ")


@dataclasses.dataclass
class Part:
    """The lines of a part, and whether it plays keys."""

    lines: list
    plays: bool


def type_before(value):
    """The type that stands before a value, as `[1 x i8]`: up to the first blank that is in no brackets."""
    depth = 0
    for place, sign in enumerate(value):
        depth += (sign in "[{<") - (sign in "]}>")
        if sign == " " and depth == 0:
            return value[:place]
    return value


class Piece:
    """A function or a value of a module: its lines, and the names that they mention."""

    def __init__(self, lines):
        self.lines = lines
        found = {name for line in lines for name in NAME.findall(line)} if "@" in "".join(lines[1:]) else set()
        found |= set(NAME.findall(lines[0]))
        self.mentions = found

    def is_function(self):
        return self.lines[0].startswith("define")

    def changes(self):
        return bool(CHANGES.match(self.lines[0]))

    def exported(self):
        """Its lines where other parts may name it."""
        return [OWN.sub(r"\1 hidden ", self.lines[0], count=1), *self.lines[1:]]

    def declared(self):
        """The line by which another part names it."""
        first = OWN.sub(r"\1 hidden ", self.lines[0], count=1)
        if self.is_function():
            return "declare" + first.removeprefix("define").removesuffix("{\n") + "\n"
        kind, _, value = first.partition(" global ")
        return f"{kind.replace(' hidden', ' external hidden')} global {type_before(value)}\n"


def read_pieces(lines):
    """The functions and values of a module by their names, and its other lines."""
    pieces, others, body = {}, [], None
    for line in lines:
        if body is not None:
            body.append(line)
            if line.startswith("}"):
                pieces[NAME.search(body[0])[1]], body = Piece(body), None
        elif line.startswith("define"):
            body = [line]
        elif line.startswith("@"):
            pieces[NAME.match(line)[1]] = Piece([line])
        elif line.strip() and not line.startswith(";"):
            others.append(line)
    for name, piece in pieces.items():
        piece.mentions = sorted(other for other in piece.mentions if other in pieces and other != name)
    return pieces, others


def finished_order(pieces):
    """The pieces that the root leads to, each after all that it alone leads to."""
    order, seen, walk = [], {ROOT}, [(ROOT, iter(pieces[ROOT].mentions))]
    while walk:
        name, rest = walk[-1]
        for other in rest:
            if other not in seen:
                seen.add(other)
                walk.append((other, iter(pieces[other].mentions)))
                break
        else:
            order.append(name)
            walk.pop()
    return order


def dominators(pieces, order):
    """Of each piece the nearest other one through which each way from the root to it leads."""
    place = {name: number for number, name in enumerate(order)}
    callers = {name: [] for name in order}
    for name in order:
        for other in pieces[name].mentions:
            callers[other].append(name)
    above, has_changed = {ROOT: ROOT}, True
    while has_changed:
        has_changed = False
        for name in reversed(order[:-1]):
            nearest = None
            for caller in callers[name]:
                if caller in above:
                    nearest = caller if nearest is None else common(above, place, caller, nearest)
            has_changed = has_changed or above.get(name) != nearest
            above[name] = nearest
    return above


def common(above, place, first, second):
    """The nearest piece above two."""
    while first != second:
        while place[first] < place[second]:
            first = above[first]
        while place[second] < place[first]:
            second = above[second]
    return first


def heads_of(pieces, order, above):
    """Of each piece the head of the part that it belongs to."""
    weight, heads = dict.fromkeys(order, 0), {ROOT}
    for name in order:
        weight[name] += len(pieces[name].lines)
        if weight[name] >= LEAST_PART and name != ROOT and pieces[name].is_function():
            heads.add(name)
        elif name != ROOT:
            weight[above[name]] += weight[name]
    head = {}
    for name in reversed(order):
        head[name] = name if name in heads else head[above[name]]
    return head


def is_copied(piece, most):
    """Whether each part that mentions a piece gets it for itself, where it has at most that number of lines."""
    return not piece.changes() and len(piece.lines) <= most and bool(OWN.match(piece.lines[0]))


def plays(top):
    """Whether the part with that head plays keys."""
    return not NOT_AT_PLAY.match(top)


def members_of(pieces, head, top, own, most):
    """What a part has: its own pieces, copies of others up to a number of lines, and those of other parts that it mentions."""
    copies, named = set(), set()
    walk = [other for name in own for other in pieces[name].mentions]
    while walk:
        name = walk.pop()
        if name in own or name in copies or name in named:
            continue
        if head[name] != name and is_copied(pieces[name], most):
            copies.add(name)
            walk.extend(pieces[name].mentions)
        else:
            named.add(name)
    return copies, named


def cut(lines, most_at_play=MOST_COPIED_AT_PLAY, most_elsewhere=MOST_COPIED):
    """The parts of a module, the largest first. Functions up to a number of lines are copied, the first number for parts that play
    keys."""
    pieces, others = read_pieces(lines)
    order = finished_order(pieces)
    head = heads_of(pieces, order, dominators(pieces, order))
    owned = {}
    for name in order:
        owned.setdefault(head[name], set()).add(name)
    most = {top: most_at_play if plays(top) else most_elsewhere for top in owned}
    members = {top: (own, *members_of(pieces, head, top, own, most[top])) for top, own in owned.items()}
    exported = {name for _, _, named in members.values() for name in named}
    parts = [Part(lines_of(pieces, others, exported, *sets), plays(top)) for top, sets in members.items()]
    return sorted(parts, key=lambda part: -len(part.lines))


def lines_of(pieces, others, exported, own, copies, named):
    """The lines of a part."""
    lines = list(others)
    for name in sorted(own):
        lines += pieces[name].exported() if name in exported else pieces[name].lines
    for name in sorted(copies):
        lines += pieces[name].lines
    lines += [pieces[name].declared() for name in sorted(named)]
    return lines
