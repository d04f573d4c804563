"""What the tools that measure have in common: numbers by chance, and instructions by valgrind."""
import re
import subprocess


class Chance:
    """Numbers by chance, the same in each run."""

    def __init__(self):
        self.state = 2463534242

    def below(self, limit):
        self.state = (self.state * 1103515245 + 12345) % 2**31
        return (self.state >> 8) % limit

    def one_of(self, choices):
        return choices[self.below(len(choices))]


def counted_run(words):
    """Runs a command by valgrind: its instructions, or nothing where they weren't counted, and the run itself."""
    counter = ["valgrind", "--tool=cachegrind", "--cache-sim=no", "--cachegrind-out-file=/dev/null"]
    done = subprocess.run([*counter, *map(str, words)], capture_output=True)
    found = re.search(rb"I +refs: +([\d,]+)", done.stderr)
    return int(found[1].replace(b",", b"")) if found else None, done
