#!/usr/bin/env python3
"""Compares what `asn_tool flatten` makes of constraints with a second reading of them.

usage: tests/program/published_sets.py PROGRAM [SEED [COUNT]]

Constraints of INTEGER and sizes of OCTET STRING are made at random from the grammar of X.680 ("constrained types",
"element set specification"). They have values, ranges with and without `<`, MIN and MAX, unions, intersections, EXCEPT,
ALL EXCEPT, contained subtypes, parentheses and extension marks. Several follow one another, on the type or on a
reference. Each text is made together with its set of numbers, without EXCEPT, which PER and OER do not see. The type of
the profile has the least and the greatest of these numbers and the last mark. It is refused if no numbers are left, or
if a mark follows all numbers. A constraint has the numbers that are left with EXCEPT, where these are not all of the
type. A mark at the end allows all numbers of the type that has it.
"""
import random
import re

from run import script, write

# the numbers that are no bound below and above, and what a constraint writes for them
LEAST, MOST = -60, 60
ENDS = {LEAST: str(-(1 << 63)), MOST: str((1 << 64) - 1)}
TYPES = 3000


class Made:
    """A set in the text and as numbers: those that encodings see, and those that are left with EXCEPT."""

    def __init__(self, text, numbers, left=None):
        self.text, self.numbers, self.left = text, numbers, numbers if left is None else left


class Maker:
    """Makes constraints whose numbers lie from `least` to `most`, with the named types that they may contain."""

    def __init__(self, chance, least, most, named):
        self.chance, self.least, self.most, self.named = chance, least, most, named

    def value(self):
        return self.chance.randint(-12 if self.least < 0 else 0, 20)

    def bounds(self):
        """A range, of which either end may be open or not taken."""
        low, high = sorted((self.value(), self.value()))
        texts = [str(low), str(high)]
        if self.chance.random() < 0.1:
            low, texts[0] = self.least, "MIN"
        elif self.chance.random() < 0.15:
            low, texts[0] = low + 1, f"{low}<"
        if self.chance.random() < 0.1:
            high, texts[1] = self.most, "MAX"
        elif self.chance.random() < 0.15:
            high, texts[1] = high - 1, f"<{high}"
        return Made("..".join(texts), set(range(low, high + 1)))

    def element(self, depth):
        kind = self.chance.random()
        if depth and kind < 0.25:
            inner = self.union(depth - 1)
            return Made(f"({inner.text})", inner.numbers, inner.left)
        if self.named and kind < 0.35:
            one = self.chance.choice(self.named)
            return Made(self.chance.choice(("", "INCLUDES ")) + one.text, one.numbers, one.left)
        if kind < 0.6:
            value = self.value()
            return Made(str(value), {value})
        return self.bounds()

    def intersection(self, depth):
        """Elements with INTERSECTION between them, each of which may have an EXCEPT."""
        text, numbers = [], set(range(self.least, self.most + 1))
        left = numbers
        for _ in range(self.chance.choice((1, 1, 1, 2, 2, 3))):
            one = self.element(depth)
            if self.chance.random() < 0.08:
                barred = self.element(depth)
                one = Made(f"{one.text} EXCEPT {barred.text}", one.numbers, one.left - barred.left)
            numbers, left = numbers & one.numbers, left & one.left
            text.append(one.text)
        return Made(self.chance.choice((" ^ ", " INTERSECTION ")).join(text), numbers, left)

    def union(self, depth):
        parts = [self.intersection(depth) for _ in range(self.chance.choice((1, 1, 2, 2, 3)))]
        if self.chance.random() < 0.03:
            barred, numbers = self.element(depth), set(range(self.least, self.most + 1))
            return Made(f"ALL EXCEPT {barred.text}", numbers, numbers - barred.left)
        text = self.chance.choice((" | ", " UNION ")).join(it.text for it in parts)
        return Made(text, set.union(*(it.numbers for it in parts)), set.union(*(it.left for it in parts)))

    def marked(self, depth):
        """A set, its text with a mark where it has one, and whether it has."""
        one = self.union(depth)
        kind = self.chance.random()
        if kind < 0.15:
            return one, one.text + ", ...", True
        if kind < 0.25:
            return one, f"{one.text}, ..., {self.union(depth).text}", True
        return one, one.text, False


class Type:
    """A type with a constraint or several, what is left of its numbers, and the numbers of its values."""

    def __init__(self, maker, chance, all_numbers):
        self.numbers, self.all, self.is_marked, self.texts = set(all_numbers), set(all_numbers), False, []
        self.left = self.all
        for _ in range(chance.choice((1, 1, 1, 2, 3))):
            one, text, self.is_marked = maker.marked(chance.choice((0, 1, 2, 3)))
            self.numbers = self.numbers & one.numbers
            self.values, self.left = self.left if self.is_marked else self.left & one.left, self.left & one.left
            self.texts.append(text)

    def constraints(self, word, chance):
        """Its constraints; of a size the mark may stand inside or outside of SIZE."""
        if not word:
            return " ".join(f"({it})" for it in self.texts)
        said = []
        for it in self.texts:
            inner, comma, mark = it.partition(", ...")
            outside = comma and not mark and chance.random() < 0.5
            said.append(f"({word} ({inner}), ...)" if outside else f"({word} ({it}))")
        return " ".join(said)

    def wanted(self, name, least, most):
        """The type of the profile; None where it is refused."""
        if not self.numbers:
            return None
        low, high = min(self.numbers), max(self.numbers)
        bounds = [str(low) if low != LEAST else "MIN", str(high) if high != MOST else "MAX"]
        if (low, high) == (least, most):
            return None if self.is_marked else name
        text = f"( {bounds[0]} .. {bounds[1]}{' , ...' if self.is_marked else ''} )"
        return f"INTEGER {text}" if name == "INTEGER" else f"OCTET STRING ( SIZE {text} )"

    def constraint(self, name):
        """The constraint next to the type; None where the values are all those of the type."""
        taken = self.all if self.is_marked else set(range(min(self.numbers), max(self.numbers) + 1))
        if self.values == taken:
            return None
        if not self.values:
            return "(CONSTRAINED BY {no value})"
        lows = sorted(it for it in self.values if it - 1 not in self.values)
        highs = sorted(it for it in self.values if it + 1 not in self.values)
        ends = ENDS if name == "INTEGER" else {MOST: "MAX"}
        pairs = [[ends.get(it, str(it)) for it in pair] for pair in zip(lows, highs)]
        text = " | ".join(low if low == high else f"{low}..{high}" for low, high in pairs)
        return f"({text})" if name == "INTEGER" else f"(SIZE ({text}))"


def made(chance, count):
    """The text of a module, and of each type what it has to become."""
    text, wanted, named = ["M DEFINITIONS AUTOMATIC TAGS ::= BEGIN\n"], {}, []
    for index in range(count):
        is_size = index % 3 == 2
        least = 0 if is_size else LEAST
        maker = Maker(chance, least, MOST, [it for it in named if not is_size or min(it.numbers) >= 0])
        it = Type(maker, chance, range(least, MOST + 1))
        name = f"T{index}"
        base, word = ("OCTET STRING", "SIZE") if is_size else ("INTEGER", "")
        text.append(f"{name} ::= {base} {it.constraints(word, chance)}\n")
        flat = it.wanted(base, least, MOST)
        wanted[name] = flat, flat and it.constraint(base)
        # others may contain its values if it contains none, since what is read of constraints is bounded
        if not is_size and flat and not re.search(r"T\d", text[-1].partition("::=")[2]) and chance.random() < 0.02:
            named.append(Made(name, it.numbers, it.left))
    return "".join([*text, "END\n"]), wanted


def flattened(ran):
    """The types that `flatten` wrote by their names, and the constraints."""
    lines = ran.out.decode().splitlines()[1:-1]
    types = dict(it.split(" ::= ", 1) for it in lines if not it.startswith("--"))
    return types, dict(it[4:].split(" ", 1) for it in lines if it.startswith("--: "))


def compare(test, seed=1, many=TYPES):
    text, wanted = made(random.Random(seed), many)
    ran = test.run(["flatten", "--report", "text", write("sets.asn", text)])
    types, constraints = flattened(ran)
    lines = dict(line.split(" ::= ", 1) for line in text.splitlines()[1:-1])
    remarks = [line.split(": ", 1)[1].split(": ", 1) for line in ran.err.decode().splitlines()]
    wider = {name for name, remark in remarks if remark.startswith("wider: ")}
    # where ranges meet others there may be more than are kept
    many_ranges = {name for name, remark in remarks if remark.endswith("more than 256 ranges")}
    for name, type_wanted in wanted.items():
        if name in many_ranges:
            continue
        found = types.get(name), constraints.get(name)
        well = found == type_wanted and (found[0] is None or name not in wider)
        what = f"{found}, {name in wider}, wanted {type_wanted}"
        test.add(well, f"seed {seed}: {lines[name]}: {what}")


if __name__ == "__main__":
    script(__doc__, lambda test: compare(test, *map(int, test.words[1:])), words=range(1, 4))
