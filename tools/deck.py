"""Reads a deck, free MPS with the sections PAIRS and GROUPS, into Python's fractions, for the scripts of this folder.

It refuses nothing: run `lpcc relax` on a deck first. docs/FORMATS.md has the rules that are followed here.
"""
from fractions import Fraction
from math import lcm

SECTIONS = {"NAME", "OBJSENSE", "ROWS", "COLUMNS", "RHS", "RANGES", "BOUNDS", "PAIRS", "GROUPS", "ENDATA"}
NO_BOUND = 10 ** 20


class Row:
    """A row other than an N row; its terms are a dictionary from columns, counted from 0, to fractions."""

    def __init__(self, name, letter):
        self.name, self.letter = name, letter
        self.terms, self.rhs, self.range = {}, Fraction(0), None

    def sides(self):
        """The lower and the upper end, None where there is none."""
        b, r = self.rhs, self.range
        if r is None:
            return {"G": (b, None), "L": (None, b), "E": (b, b)}[self.letter]
        down = self.letter == "L" or self.letter == "E" and r < 0
        return (b - abs(r), b) if down else (b, b + abs(r))


class Column:
    """A column with its bounds, None where there is none."""

    def __init__(self, name):
        self.name, self.lower, self.upper, self.fixed = name, Fraction(0), None, False


class Constraint:
    """`terms >= rhs`, or `terms = rhs` where `equal` is true, in whole numbers."""

    def __init__(self, label, equal, terms, rhs):
        self.label, self.equal, self.terms, self.rhs = label, equal, terms, rhs


class Deck:
    """What a deck says. `cost` and `constant` are fractions, and `sign` is -1 where the greatest value is sought, else 1.
    Pairs are (name, quantity, quantity), those of groups among them; a quantity is ("COL", "UPC" or "ROW", number)."""

    def __init__(self):
        self.name = ""
        self.rows, self.columns, self.pairs = [], [], []
        self.cost, self.constant, self.sign = {}, Fraction(0), 1


class Case:
    """The whole numbers of a deck, of which certificates speak; their least cost is sought. Pairs are two numbers of
    constraints, counted from 0."""

    def __init__(self, cost, scale, offset, sign, constraints, pairs):
        self.cost, self.scale, self.offset, self.sign = cost, scale, offset, sign
        self.constraints, self.pairs = constraints, pairs

    def value(self, cost):
        """The deck's value where the whole costs add up to this."""
        return self.sign * Fraction(Fraction(cost) + self.offset, self.scale)


def lines_of(text):
    """The section and the fields of each data line, up to ENDATA; and the number of lines up to it."""
    section, found = None, []
    for number, line in enumerate(text.split("\n"), 1):
        fields = line.rstrip("\r").split()
        if not fields or line.startswith("*"):
            continue
        margin = line[0] not in " \t"
        if margin and (fields[0] in ("NAME", "OBJSENSE") or len(fields) == 1 and fields[0] in SECTIONS):
            section = fields[0]
            if fields[1:]:
                found.append((section, fields[1:]))
            if section == "ENDATA":
                return found, number
        else:
            found.append((section, fields))
    return found, len(text.split("\n"))


def row_values(fields):
    """The rows and values of a line of RHS or RANGES, with or without the name of a set."""
    fields = fields[len(fields) % 2:]
    return zip(fields[::2], map(Fraction, fields[1::2]))


def set_bound(column, kind, value):
    if kind in ("LO", "FX", "FR", "MI"):
        column.lower = None if kind in ("FR", "MI") or kind == "LO" and value <= -NO_BOUND else value
    if kind in ("UP", "FX", "FR", "PL"):
        column.upper = None if kind in ("FR", "PL") or kind == "UP" and value >= NO_BOUND else value
    column.fixed = kind == "FX"


def bound_words(fields):
    """The kind, the column and the value, with or without the name of a set."""
    kind, rest = fields[0], fields[1:]
    if kind in ("UP", "LO", "FX"):
        return kind, rest[-2], Fraction(rest[-1])
    return kind, rest[0] if len(rest) == 1 else rest[1], None


def quantity(deck, rows, columns, kind, name):
    return ("ROW", deck.rows.index(rows[name])) if kind == "ROW" else (kind, columns[name])


def group_pairs(name, items):
    """The pairs of all two items of a group, in their order."""
    return [(name, a, b) for k, a in enumerate(items) for b in items[k + 1:]]


def read(text):
    """The deck of a text that `lpcc` takes."""
    deck, rows, columns, groups, objective = Deck(), {}, {}, {}, None
    for section, fields in lines_of(text)[0]:
        if section == "NAME":
            deck.name = " ".join(fields)
        elif section == "OBJSENSE":
            deck.sign = -1 if fields[0] in ("MAX", "MAXIMIZE") else 1
        elif section == "ROWS":
            letter, name = fields
            rows[name] = Row(name, letter)
            if letter != "N":
                deck.rows.append(rows[name])
            elif objective is None:
                objective = rows[name]
        elif section == "COLUMNS":
            name = fields[0]
            if name not in columns:
                columns[name] = len(deck.columns)
                deck.columns.append(Column(name))
            for row, value in row_values(fields[1:]):
                if value != 0:
                    rows[row].terms[columns[name]] = value
        elif section == "RHS":
            for row, value in row_values(fields):
                rows[row].rhs = value
        elif section == "RANGES":
            for row, value in row_values(fields):
                rows[row].range = value
        elif section == "BOUNDS":
            kind, name, value = bound_words(fields)
            set_bound(deck.columns[columns[name]], kind, value)
        elif section == "PAIRS":
            deck.pairs.append((fields[0], *(quantity(deck, rows, columns, *words) for words in (fields[1:3], fields[3:5]))))
        elif section == "GROUPS":
            words = zip(fields[1::2], fields[2::2])
            groups.setdefault(fields[0], []).extend(quantity(deck, rows, columns, *w) for w in words)
    for name, items in groups.items():
        deck.pairs += group_pairs(name, items)
    deck.cost, deck.constant = objective.terms, -objective.rhs
    return deck


def multiplier(numbers):
    """The least positive whole number that makes these fractions whole."""
    return lcm(*(Fraction(n).denominator for n in numbers))


def at_least(label, terms, rhs):
    return Constraint(label + " lower", False, terms, rhs)


def at_most(label, terms, rhs):
    return Constraint(label + " upper", False, {j: -v for j, v in terms.items()}, -rhs)


def case_of(deck):
    """The case of a deck: the constraints of the rows in file order, then those of the columns."""
    constraints, lower, upper = [], {}, {}
    for i, row in enumerate(deck.rows):
        m = multiplier([row.rhs, row.range or 0, *row.terms.values()])
        terms = {j: int(m * v) for j, v in sorted(row.terms.items())}
        low, high = row.sides()
        if row.letter == "E" and row.range is None:
            constraints.append(Constraint("row " + row.name, True, terms, int(m * low)))
            continue
        if low is not None:
            lower["ROW", i] = len(constraints)
            constraints.append(at_least("row " + row.name, terms, int(m * low)))
        if high is not None:
            upper["ROW", i] = len(constraints)
            constraints.append(at_most("row " + row.name, terms, int(m * high)))
    for j, column in enumerate(deck.columns):
        label = "column " + column.name
        if column.fixed:
            value = column.lower
            constraints.append(Constraint(label + " fixed", True, {j: value.denominator}, value.numerator))
            continue
        if column.lower is not None:
            lower["COL", j] = len(constraints)
            constraints.append(at_least(label, {j: column.lower.denominator}, column.lower.numerator))
        if column.upper is not None:
            upper["UPC", j] = len(constraints)
            constraints.append(at_most(label, {j: column.upper.denominator}, column.upper.numerator))
    scale = multiplier([deck.constant, *deck.cost.values()])
    cost = [int(deck.sign * scale * deck.cost.get(j, 0)) for j in range(len(deck.columns))]
    side = {q: upper[q] if q[0] == "UPC" or q[0] == "ROW" and deck.rows[q[1]].letter == "L" else lower[q]
            for _, a, b in deck.pairs for q in (a, b)}
    pairs = [(side[a], side[b]) for _, a, b in deck.pairs]
    return Case(cost, scale, int(deck.sign * scale * deck.constant), deck.sign, constraints, pairs)


def sum_text(terms, names):
    """A sum such as `2 x - y`, or `0`."""
    text = ""
    for j, v in sorted(terms.items()):
        if v != 0:
            size = "" if abs(v) == 1 else f"{abs(v)} "
            sign = ("- " if text else "-") if v < 0 else ("+ " if text else "")
            text += (" " if text else "") + sign + size + names[j]
    return text or "0"
