#!/usr/bin/env python3
"""Draws scripts by a fixed generator: the same in every run. About a quarter of them is to be refused.

usage: bench/scripts.py FOLDER COUNT      writes FOLDER/0.txt, FOLDER/1.txt and so on
"""
import random
import sys
from pathlib import Path

MOST_DEPTH = 8
MOST_NAME = 16


class Script:
    """A script, line by line. The same seed draws the same script."""

    def __init__(self, seed):
        self.draw = random.Random(seed)
        self.lines = []
        self.variables = []
        variable_count = self.draw.randint(1, 8)
        table_count = self.draw.randint(0, 4)
        self.has_large_numbers = self.draw.random() < 0.3
        while len(self.variables) < variable_count:
            self.variables.append(self.new_name())
        self.tables = [f"t{number}" for number in range(table_count)]
        self.declare()
        self.statements_left = self.draw.randint(3, 24)
        while self.statements_left > 0:
            self.block(0)

    def new_name(self):
        """A name that no variable has yet. It is no reserved word, by its letters."""
        name = self.draw.choice("abcdefgh")
        name += "".join(self.draw.choice("abcxyz_019") for _ in range(self.draw.randint(0, MOST_NAME - 1)))
        while name in self.variables:
            name = name[: MOST_NAME - 1] + self.draw.choice("xyz012")
        return name

    def number(self):
        """A number, small more often than large."""
        small, middle = self.draw.randint(0, 12), self.draw.randint(0, 300)
        return self.draw.choice([small, middle, 2147483647 if self.has_large_numbers else self.draw.randint(0, 50)])

    def constant(self):
        """A number with or without a sign."""
        sign = "-" if self.draw.random() < 0.35 else ""
        return f"{sign}{self.number()}"

    def interval(self):
        """A range; in a few its ends are swapped, so it is refused."""
        low, high = sorted([int(self.constant()), int(self.constant())])
        if self.draw.random() < 0.02:
            low, high = high, low
        return f"{low}..{high}"

    def variable(self):
        """One of the variables."""
        return self.draw.choice(self.variables)

    def declare(self):
        """All declarations."""
        for name in self.variables:
            self.lines.append(f"var {name} = {self.interval()};")
        for name in self.tables:
            self.lines.append(f"table {name}[{self.draw.randint(1, 70)}] = {self.interval()};")

    def right_side(self):
        """What is assigned."""
        form = self.draw.randint(0, 9)
        if form == 0:
            return self.constant()
        if form in (2, 3):
            return f"{self.variable()} + {self.number()}"
        if form == 4:
            return f"{self.variable()} - {self.number()}"
        if form == 5:
            return f"- {self.variable()}"
        if form in (6, 7):
            return f"{'hear' if form == 6 else 'sense'} {self.interval()}"
        if form in (8, 9) and self.tables:
            return f"{self.draw.choice(self.tables)}[{self.variable()}]"
        return self.variable()

    def condition(self):
        """A variable beside another one or beside a constant."""
        sign = self.draw.choice(["<", "<=", ">", ">="])
        left = self.variable()
        if self.draw.random() < 0.5 and len(self.variables) > 1:
            right = self.draw.choice([name for name in self.variables if name != left])
        else:
            right = self.constant()
        return f"{left} {sign} {right}"

    def block(self, depth):
        """A few statements, as long as there are some left."""
        for _ in range(self.draw.randint(1, 5)):
            if self.statements_left <= 0:
                return
            self.statements_left -= 1
            self.statement(depth)

    def statement(self, depth):
        """A loop, a branch or an assignment."""
        form = self.draw.random()
        indent = "  " * depth
        if depth < MOST_DEPTH and form < 0.22:
            self.lines.append(f"{indent}while {self.condition()} {{")
            self.block(depth + 1)
            self.lines.append(f"{indent}}}")
        elif depth < MOST_DEPTH and form < 0.45:
            self.branch(depth)
        else:
            self.lines.append(f"{indent}{self.variable()} := {self.right_side()};")

    def branch(self, depth):
        """An `if`, every other time with an `else`."""
        indent = "  " * depth
        self.lines.append(f"{indent}if {self.condition()} {{")
        self.block(depth + 1)
        if self.draw.random() < 0.5:
            self.lines.append(f"{indent}}} else {{")
            self.block(depth + 1)
        self.lines.append(f"{indent}}}")

    def text(self):
        """Its text; in about one of ten a character is changed."""
        text = "\n".join(self.lines) + "\n"
        if self.draw.random() < 0.1:
            place = self.draw.randrange(len(text))
            text = text[:place] + self.draw.choice("!$;{}=a9") + text[place + 1 :]
        return text


def main(arguments):
    """Writes FOLDER/0.txt and so on. Answers the exit status."""
    if len(arguments) != 2 or not arguments[1].isdecimal():
        print("usage: bench/scripts.py FOLDER COUNT", file=sys.stderr)
        return 2
    folder, count = Path(arguments[0]), int(arguments[1])
    folder.mkdir(parents=True, exist_ok=True)
    for seed in range(count):
        (folder / f"{seed}.txt").write_text(Script(seed).text())
    return 0


if __name__ == "__main__":
    sys.exit(main(sys.argv[1:]))
