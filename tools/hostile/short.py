"""Short lists, cut from stored ones, that together make all calls and ask all questions of those."""
import re

LINE = re.compile(rb"(?:([A-Za-z_]\w*) = )?([?!]?\w*)")
TEXT = re.compile(rb'"(?:[^"\\]|\\.)*"')


class Stored:
    """A stored list: its title, its dialect, its steps and its questions, and the number of the step of each name."""

    def __init__(self, title, text):
        self.title = title
        self.dialect, *lines = text.rstrip(b"\n").split(b"\n")
        self.questions = [it for it in lines if it.startswith((b"?", b"!"))]
        self.steps = [it for it in lines if it not in self.questions]
        self.names = {LINE.match(it)[1]: number for number, it in enumerate(self.steps)}

    def cut(self, count):
        """The first steps, so many, after the title, with the questions that name no later one."""
        asked = self.questions if count == len(self.steps) else [it for it in self.questions if self.last(it) < count]
        return [b"== " + self.title, self.dialect, *self.steps[:count], *asked]

    def last(self, question):
        """The greatest number in a question, and of a step that it names."""
        words = TEXT.sub(b"", question).split()[1:]
        return max([int(it) if it.isdigit() else self.names.get(it, -1) for it in words], default=-1)

    def cuts(self):
        """Cut after each step whose call is the list's first of its name, and after all steps."""
        called = [LINE.match(it)[2] for it in self.steps]
        ends = {called.index(it) + 1 for it in called} | {len(called)}
        return [self.cut(it) for it in sorted(ends)]


def calls(lines):
    return {LINE.match(it)[2] for it in lines[2:]}


def short_lists(stored, is_refused):
    """Chosen one by one: the most calls and questions that are new, for what the list costs, where none is refused.

    Answers the lists, each with its title, and the calls that are left.
    """
    cuts = [(calls(lines), lines) for it in stored for lines in Stored(*it).cuts()]
    left = set().union(*(made for made, _ in cuts))
    chosen = []
    while left and cuts:
        cuts = [it for it in cuts if it[0] & left]
        best = max(cuts, key=lambda it: len(it[0] & left) / (len(it[1]) * (len(it[1]) + 20)), default=None)
        if best is None:
            break
        made, lines = best
        text = b"\n".join(lines) + b"\n"
        if is_refused(text):
            cuts.remove(best)
            continue
        left -= made
        chosen.append((lines[0][3:], text))
    return chosen, left
