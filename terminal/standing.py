"""What stands on the screen: the lines that a view must be handed to draw it."""
from run_output import Kind


class Standing:
    """The lines of title and level, the note, the last whole frame, and what is told last."""

    def __init__(self):
        self.title = self.level = self.note = self.frame = self.news = b""

    def take(self, part):
        """A part of the output is shown."""
        if part.kind is Kind.TITLE:
            self.title = part.data
        elif part.kind is Kind.LEVEL:
            self.level, self.note, self.frame, self.news = part.data, b"", b"", b""
        elif part.kind is Kind.FRAME:
            self.frame, self.news = part.data, b""

    def lines(self):
        """All lines, in the order in which they came."""
        return self.title + self.level + self.note + self.frame + self.news

    def height(self):
        """How many rows the frame has."""
        return max(self.frame.count(b"\n") - 1, 0)
