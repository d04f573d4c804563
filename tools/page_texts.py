"""Texts of games by which pages are checked."""
import random

HEAD = """title {title}

OBJECTS

Background .
green

Player P
white

Crate *
orange

Wall #
brown

Sign m
blue

Roller o
red

Goal +
yellow

COLLISIONLAYERS

Background
Goal
Player, Wall, Crate, Sign, Roller

RULES

[ > Player | Crate ] -> [ > Player | > Crate ]
[ > Player | Sign ] -> [ > Player | Sign ] message {message}
[ stationary Roller ] -> [ right Roller ] again

WINCONDITIONS

All Goal on Crate

LEVELS

"""
PLAIN = HEAD.format(title="Push it", message="A sign.") + """message Hello.

######
#.P*+#
######

message Well done.

########
#o...m.#
#.P*..+#
########
"""
# A title, a message and a name that would do something if a browser, or what turns texts round, were to obey them.
TITLE = "</script><script>window.isBroken=1</script>\" onload='window.isBroken=2' &lt;b> \u202eturned\u202c \x1b[31m </title>"
MESSAGE = "<img src=x onerror='window.isBroken=3'> ]]> \u2067round\u2069 --> </textarea> \x07"
HOSTILE = HEAD.format(title=TITLE, message=MESSAGE) + "#####\n#.Pm#\n#..+#\n#####\n"
FAULTY = PLAIN.replace("Player, Wall, Crate, Sign", "Player, Wall, Krate, Sign")

# Counters that never show the same board twice, in long rows: one key takes minutes.
COUNTERS = """title Counting

OBJECTS

Background .
green

Player P
white

Seed z
gray

Source S
gray

Bit b
blue

Carry c
red

Runner r
yellow

End e
yellow

COLLISIONLAYERS

Background
Seed, Source, End
Bit
Carry
Runner
Player

RULES

[ action Player ] [ Seed ] -> [ Player ] [ Source ]
[ Source ] -> [ Source ] again
startloop
[ Source no Carry ] -> [ Source Carry ]
right [ Carry Bit | ] -> [ | Carry ]
+ [ Carry no Bit ] -> [ Bit ]
[ Source no Runner ] -> [ Source Runner ]
right [ Runner | no Runner ] -> [ | Runner ]
[ Runner End ] -> [ End ]
endloop

LEVELS

"""
ENDLESS = COUNTERS + "P" + "." * 249 + "\n" + ("z" + "." * 248 + "e\n") * 249


def large_level(side):
    """A game whose level is larger than a window, with the player in a corner."""
    rows = ["#" * side, *["#" + "." * (side - 2) + "#"] * (side - 2), "#" * side]
    rows[1] = "#P" + rows[1][2:]
    rows[-2] = rows[-2][:-2] + "+#"
    return HEAD.format(title="Far and wide", message="A sign.") + "\n".join(rows) + "\n"


def pushing(side, count):
    """A game of pushing on a board of that side, with a number of keys, which are the same each time."""
    chance = random.Random(1)
    rows = [["#" if {x, y} & {0, side - 1} else chance.choice("........**+#") for x in range(side)] for y in range(side)]
    rows[side // 2][side // 2] = "P"
    text = HEAD.format(title="Pushing", message="A sign.") + "\n".join(map("".join, rows)) + "\n"
    return text, "".join(chance.choice("wasd") for _ in range(count))
