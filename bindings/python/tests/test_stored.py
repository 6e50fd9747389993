"""The stored lists of calls, made by the methods: the first 253 are those of the original's recorded answers.

`crates/vast_replay/stdin` has the lists, `stdout` what they give. The table says which argument is what, so that each call
is made by its method with arguments of Python.
"""
import json
import os
import re

import vast
from sessions import SESSIONS, FileTest, Noted
from vast import Condition, File, Refused

ROOT = os.path.dirname(os.path.dirname(os.path.dirname(os.path.dirname(os.path.abspath(__file__)))))
STORED = f"{ROOT}/crates/vast_replay"
TEXT = json.JSONDecoder(strict=False)  # control characters stand in them as they are
WORD = re.compile(r'"(?:[^"\\]|\\.)*"|\S+')
NAMED = re.compile(r"([A-Za-z_]\w*) = ")


class Missing:
    """In the place of an answer whose number no step has; the method tells of it as of another kind."""

    def __repr__(self):
        return "no such answer"


def blocks(path):
    """The parts of a file by their headers, in order; a header that stands twice is told apart by its place."""
    with open(path, encoding="utf-8", newline="\n") as file:
        parts = re.split(r"^== (.*)\n", file.read(), flags=re.MULTILINE)
    return list(zip(parts[1::2], parts[2::2]))


class Arguments:
    """The words of a line, read as the table says."""

    def __init__(self, words, answers):
        self.words = words
        self.answers = answers

    def read(self, kind):
        """The next argument."""
        form = kind["form"]
        if form == "list":
            return self.many(kind["of"])
        if form == "group":
            return self.group(kind)
        word = self.words.pop(0)
        if form == "optional":
            return None if word == "-" else self.read(kind["of"])
        if form == "handle":
            return self.answers.get(word, Missing())
        plain = {"text": TEXT.decode, "truth": json.loads, "integer": int}
        return plain.get(form, str)(word)

    def many(self, kind):
        """A list."""
        self.words.pop(0)
        found = []
        while self.words[0] != "]":
            found.append(self.read(kind))
        self.words.pop(0)
        return found

    def group(self, kind):
        """A group."""
        self.words.pop(0)
        fields = [self.read(field["type"]) for field in kind["fields"]]
        self.words.pop(0)
        return getattr(vast, kind["of"])(*fields)


def shown(answer):
    """An answer as lists print it."""
    if isinstance(answer, bool):
        return str(answer).lower()
    if isinstance(answer, list):
        rows = [
            f"\n{port.name} {port.direction.value} {port.width} {shown(port.signed)} {port.reference}"
            for port in answer
        ]
        return f"{len(answer)}{''.join(rows)}"
    return "-" if answer is None else str(answer)


class Stored(FileTest):
    """Each stored list."""

    @classmethod
    def setUpClass(cls):
        with open(f"{ROOT}/bindings/calls.json", encoding="utf-8") as file:
            cls.calls = {row["call"]: row for row in json.load(file)["calls"]}

    def test_lists(self):
        given, wanted = blocks(f"{STORED}/stdin"), blocks(f"{STORED}/stdout")
        self.assertEqual([title for title, _ in given], [title for title, _ in wanted])
        for number, ((title, lines), (_, text)) in enumerate(zip(given, wanted)):
            dialect, *calls = lines.removesuffix("\n").split("\n")
            if dialect.startswith("#"):
                continue  # a list of what only lists have: comments, named questions
            for name in SESSIONS:
                with self.subTest(list=f"{title}, number {number}", session=name):
                    with File(dialect, session=Noted(name, dialect)) as file:
                        self.compare(file, calls, text)

    def compare(self, file, calls, text):
        """Makes the calls, and compares what they give."""
        steps = [line for line in calls if line[0] not in "?!"]
        answers, said = {}, ""
        for number, line in enumerate(steps):
            name = NAMED.match(line)
            answer, fault = self.make(file, line[name.end() :] if name else line, answers)
            if fault is not None:
                said = f"refused: step {number}: {fault}\n"
                break
            answers[str(number)] = answer
            if name:
                answers[name[1]] = answer
        for line in calls[len(steps) :]:
            answer, fault = self.make(file, line, answers)
            said += f"{line.split(' ')[0]}: {shown(answer) if fault is None else 'refused: ' + fault}\n"
        try:
            said += file.emit()
        except Refused as fault:
            said += f"refused: {fault.words}\n"
        self.assertEqual(said, text)

    def make(self, file, line, answers):
        """What the call of a line answers, a helper the text of its expression or `ok`; or its fault."""
        name, *words = WORD.findall(line)
        row = self.calls[name]
        arguments = Arguments(words, answers)
        try:
            given = [arguments.read(each["type"]) for each in row["parameters"]]
            answer = getattr(file, row["method"])(*given)
            if name.startswith("!"):
                answer = "ok" if answer is None else answer.emit_expression()
            return answer, None
        except TypeError as fault:
            return None, "no such answer" if "no such answer" in str(fault) else "answer of another kind"
        except Condition:
            return None, "condition not met"
        except Refused as fault:
            return None, fault.words


if not SESSIONS:
    del Stored
