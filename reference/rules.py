"""The rules of the packer in plain Python: kinds, layers, packer, line lists and archive lines.
It is meant to be read and compared with, so it is kept simple rather than fast."""

from collections import namedtuple
from math import lcm

LARGEST_MEASURE = 1_000_000
LARGEST_HEIGHT = 4_096
MOST_CLASSES = 104
MOST_PIECES = 100_000

Piece = namedtuple("Piece", "number first second finish")


class Refused(Exception):
    """A call was refused. `number` is the cause. `detail` is the length needed (cause 12) or the
    offset of the map or field (causes 13 to 15), and None with the other causes."""

    def __init__(self, number, detail=None):
        super().__init__(number, detail)
        self.number = number
        self.detail = detail


# ---------------------------------------------------------------------------------------------
# Kinds
#
# Every kind has the attributes code, classes, unit and ceiling, and answers
#   refusal(piece)                  None if the piece is admitted, else 2, 3 or 4
#   cls(piece)                      the piece's class, from 1 to classes
#   cost(c), standing(c)            the cost of class c, and of a container of it left open
#   weight(piece), load(piece)
#   fits(c, count, level, piece)    may the piece go into this container?
#   full(c, count, level)           does this container take nothing more?
#   allowed(pieces, height)         are these pieces an allowed container of that cost?
# Asked about a refused piece, or a class number out of range, a kind answers 0 or False.
# ---------------------------------------------------------------------------------------------

# For the class numbers 2 to 12: the factor in the ceiling.
CEILING_FACTOR = {
    2: 2,
    3: 7,
    4: 31,
    5: 82,
    6: 510,
    7: 610,
    8: 4_980,
    9: 11_380,
    10: 38_400,
    11: 42_660,
    12: 516_120,
}


class Bars:
    """Bars of one capacity. Piece: first measure is its length, second measure and finish are 0."""

    code = 1

    def __init__(self, capacity, class_number):
        if not 1 <= capacity <= LARGEST_MEASURE:
            raise Refused(7)
        if not 2 <= class_number <= 12:
            raise Refused(8)
        self.capacity = capacity
        self.classes = class_number
        self.multiple = lcm(*range(1, class_number))
        self.scale = (class_number - 1) * self.multiple
        self.factor = CEILING_FACTOR[class_number]
        self.unit = self.scale * capacity
        self.ceiling = self.factor * capacity

    def refusal(self, piece):
        if piece.finish != 0:
            return 2
        if not 1 <= piece.first <= self.capacity:
            return 3
        if piece.second != 0:
            return 4
        return None

    def admits(self, piece):
        return self.refusal(piece) is None

    def has_class(self, c):
        return 1 <= c <= self.classes

    def cls(self, piece):
        if not self.admits(piece):
            return 0
        return min(self.classes, self.capacity // piece.first)

    def cost(self, c):
        return 1 if self.has_class(c) else 0

    def standing(self, c):
        if not self.has_class(c):
            return 0
        return 0 if c == 1 else 1

    def weight(self, piece):
        if not self.admits(piece):
            return 0
        c = self.cls(piece)
        if c < self.classes:
            return self.scale * self.capacity // c
        return self.classes * self.multiple * piece.first

    def load(self, piece):
        return piece.first if self.admits(piece) else 0

    def fits(self, c, count, level, piece):
        if not self.has_class(c) or not self.admits(piece):
            return False
        if c < self.classes:
            return count < c
        return level + piece.first <= self.capacity

    def full(self, c, count, level):
        if not self.has_class(c):
            return False
        if c < self.classes:
            return count >= c
        return False

    def allowed(self, pieces, height):
        return (
            height == 1
            and all(self.admits(piece) for piece in pieces)
            and sum(piece.first for piece in pieces) <= self.capacity
        )


class Totes:
    """Totes hold a mass of at most the capacity and at most piece_limit pieces. The questions that
    have the same answer as for bars are put to the bars of the same capacity and class number."""

    code = 2

    def __init__(self, capacity, class_number, piece_limit):
        self.bars = Bars(capacity, class_number)
        if not class_number <= piece_limit <= 50:
            raise Refused(9)
        self.piece_limit = piece_limit
        self.classes = class_number
        self.unit = self.bars.scale * capacity * piece_limit
        self.ceiling = (self.bars.factor + self.bars.scale) * capacity * piece_limit

    def refusal(self, piece):
        return self.bars.refusal(piece)

    def cls(self, piece):
        return self.bars.cls(piece)

    def cost(self, c):
        return self.bars.cost(c)

    def standing(self, c):
        return self.bars.standing(c)

    def weight(self, piece):
        if not self.bars.admits(piece):
            return 0
        bars = self.bars
        c = bars.cls(piece)
        if c < self.classes:
            return bars.scale * bars.capacity * self.piece_limit // c
        by_mass = self.classes * bars.multiple * piece.first * self.piece_limit
        by_count = bars.scale * bars.capacity
        return by_mass + by_count

    def load(self, piece):
        return self.bars.load(piece)

    def fits(self, c, count, level, piece):
        if c == self.classes and count >= self.piece_limit:
            return False
        return self.bars.fits(c, count, level, piece)

    def full(self, c, count, level):
        if c == self.classes:
            return count >= self.piece_limit
        return self.bars.full(c, count, level)

    def allowed(self, pieces, height):
        return len(pieces) <= self.piece_limit and self.bars.allowed(pieces, height)


class Strips:
    """Rows of a strip. Piece: first measure is its width, second its height, finish 0. Heights are
    rounded up to a power of two, 2 to the 0 up to 2 to the 12. Classes 1 to 13 are the rows for
    narrow pieces, 14 to 26 those for wide ones."""

    code = 3
    classes = 26
    steps = 13

    def __init__(self, width):
        if not 1 <= width <= LARGEST_MEASURE:
            raise Refused(7)
        self.width = width
        self.unit = width
        self.ceiling = 4 * width

    def refusal(self, piece):
        if piece.finish != 0:
            return 2
        if not 1 <= piece.first <= self.width:
            return 3
        if not 1 <= piece.second <= LARGEST_HEIGHT:
            return 4
        return None

    def admits(self, piece):
        return self.refusal(piece) is None

    def has_class(self, c):
        return 1 <= c <= self.classes

    def narrow(self, c):
        return c <= self.steps

    def cls(self, piece):
        if not self.admits(piece):
            return 0
        exponent = 0
        while 2**exponent < piece.second:
            exponent += 1
        if 2 * piece.first <= self.width:
            return exponent + 1
        return exponent + 14

    def cost(self, c):
        if not self.has_class(c):
            return 0
        exponent = c - 1 if self.narrow(c) else c - 14
        return 2**exponent

    def standing(self, c):
        if not self.has_class(c):
            return 0
        return self.cost(c) if self.narrow(c) else 0

    def weight(self, piece):
        return 4 * piece.first * piece.second if self.admits(piece) else 0

    def load(self, piece):
        return piece.first if self.admits(piece) else 0

    def fits(self, c, count, level, piece):
        if not self.has_class(c) or not self.admits(piece):
            return False
        if self.narrow(c):
            return level + piece.first <= self.width
        return count == 0

    def full(self, c, count, level):
        if not self.has_class(c):
            return False
        if self.narrow(c):
            return False
        return count >= 1

    def allowed(self, pieces, height):
        return (
            height >= 1
            and all(self.admits(piece) for piece in pieces)
            and all(piece.second <= height for piece in pieces)
            and sum(piece.first * piece.second for piece in pieces) <= self.width * height
        )


# ---------------------------------------------------------------------------------------------
# Layers
# ---------------------------------------------------------------------------------------------


class Allowance:
    """Lies over a kind and lengthens the first measure of each piece before passing it down."""

    def __init__(self, extra, below):
        if not 0 <= extra <= 1_000:
            raise Refused(10)
        self.extra = extra
        self.below = below
        self.code = below.code
        self.classes = below.classes
        self.unit = below.unit
        self.ceiling = below.ceiling

    def down(self, piece):
        if 1 <= piece.first <= LARGEST_MEASURE:
            return piece._replace(first=piece.first + self.extra)
        return piece._replace(first=0)

    def refusal(self, piece):
        return self.below.refusal(self.down(piece))

    def cls(self, piece):
        return self.below.cls(self.down(piece))

    def cost(self, c):
        return self.below.cost(c)

    def standing(self, c):
        return self.below.standing(c)

    def weight(self, piece):
        return self.below.weight(self.down(piece))

    def load(self, piece):
        return self.below.load(self.down(piece))

    def fits(self, c, count, level, piece):
        return self.below.fits(c, count, level, self.down(piece))

    def full(self, c, count, level):
        return self.below.full(c, count, level)

    def allowed(self, pieces, height):
        return self.below.allowed([self.down(piece) for piece in pieces], height)


class Finishes:
    """Lies over a kind and keeps the finishes apart: each finish has its own run of the classes
    below. The kind below sees every piece as one without a finish."""

    def __init__(self, finishes, below):
        if not 1 <= finishes <= 4 or finishes * below.classes > MOST_CLASSES:
            raise Refused(11)
        self.finishes = min(finishes, MOST_CLASSES // below.classes)
        self.below = below
        self.code = below.code
        self.classes = self.finishes * below.classes
        self.unit = below.unit
        self.ceiling = below.ceiling

    def down(self, piece):
        return piece._replace(finish=0)

    def knows(self, piece):
        return piece.finish < self.finishes

    def has_class(self, c):
        return 1 <= c <= self.classes

    def class_below(self, c):
        return (c - 1) % self.below.classes + 1

    def refusal(self, piece):
        if not self.knows(piece):
            return 2
        return self.below.refusal(self.down(piece))

    def cls(self, piece):
        if self.refusal(piece) is not None:
            return 0
        return piece.finish * self.below.classes + self.below.cls(self.down(piece))

    def cost(self, c):
        return self.below.cost(self.class_below(c)) if self.has_class(c) else 0

    def standing(self, c):
        return self.below.standing(self.class_below(c)) if self.has_class(c) else 0

    def weight(self, piece):
        return self.below.weight(self.down(piece)) if self.knows(piece) else 0

    def load(self, piece):
        return self.below.load(self.down(piece)) if self.knows(piece) else 0

    def fits(self, c, count, level, piece):
        if not self.has_class(c) or not self.knows(piece):
            return False
        return self.below.fits(self.class_below(c), count, level, self.down(piece))

    def full(self, c, count, level):
        if not self.has_class(c):
            return False
        return self.below.full(self.class_below(c), count, level)

    def allowed(self, pieces, height):
        return (
            all(self.knows(piece) for piece in pieces)
            and len({piece.finish for piece in pieces}) <= 1
            and self.below.allowed([self.down(piece) for piece in pieces], height)
        )


# ---------------------------------------------------------------------------------------------
# Lines and line lists
# ---------------------------------------------------------------------------------------------

PlaceLine = namedtuple("PlaceLine", "number first second finish container cls")
ClosingLine = namedtuple("ClosingLine", "container cls pieces level weight used_cost floor")
HeadingLine = namedtuple(
    "HeadingLine",
    "code capacity class_number piece_limit allowance finishes unit ceiling standing",
)


class LineList:
    """Lines, the earliest first, in a fixed number of slots. `old` are lines that are in it from the
    start; `room` is the number of lines that can still be added to those."""

    def __init__(self, room, old=()):
        self.lines = list(old)
        self.slots = len(self.lines) + room

    def __len__(self):
        return len(self.lines)

    def unwritten(self):
        return self.slots - len(self.lines)

    def at(self, index):
        """The line at an index from 0, or None where there is none."""
        return self.lines[index] if 0 <= index < len(self.lines) else None

    def add(self, line):
        if self.unwritten() == 0:
            raise IndexError("the list has no unwritten line")
        self.lines.append(line)


# ---------------------------------------------------------------------------------------------
# Packer
# ---------------------------------------------------------------------------------------------

Container = namedtuple("Container", "number count level weight")
Answer = namedtuple("Answer", "container cls before after")
Report = namedtuple("Report", "pieces containers used_cost open_cost weight floor")


class Packer:
    """Puts pieces into containers. No class ever has two containers open together."""

    def __init__(self, kind):
        self.kind = kind
        self.open = {}  # class -> Container
        self.pieces = 0
        self.containers = 0
        self.used_cost = 0
        self.weight = 0

    def standing(self):
        return sum(self.kind.standing(c) for c in range(1, self.kind.classes + 1))

    def floor_of(self, weight):
        """The weight divided by the ceiling, rounded up."""
        floor = weight // self.kind.ceiling
        if floor * self.kind.ceiling < weight:
            floor += 1
        return floor

    def put(self, piece, place_list, closing_list):
        """Answers where the piece went, or raises Refused with nothing changed. Everything is
        worked out first and kept only when the last check has passed."""
        kind = self.kind
        if piece.number == 0:
            raise Refused(1)
        refusal = kind.refusal(piece)
        if refusal is not None:
            raise Refused(refusal)
        if self.pieces >= MOST_PIECES:
            raise Refused(5)

        c = kind.cls(piece)
        containers = self.containers
        used_cost = self.used_cost
        weight = self.weight + kind.weight(piece)
        floor = self.floor_of(weight)

        closed_before = None
        container = self.open.get(c)
        if container is not None and not kind.fits(c, container.count, container.level, piece):
            closed_before = container
            container = None
        if container is None:
            containers += 1
            used_cost += kind.cost(c)
            container = Container(containers, 0, 0, 0)
        container = Container(
            container.number,
            container.count + 1,
            container.level + kind.load(piece),
            container.weight + kind.weight(piece),
        )
        closed_after = container if kind.full(c, container.count, container.level) else None

        def closing(closed):
            if closed is None:
                return None
            return ClosingLine(
                closed.number, c, closed.count, closed.level, closed.weight, used_cost, floor
            )

        place = PlaceLine(
            piece.number, piece.first, piece.second, piece.finish, container.number, c
        )
        before = closing(closed_before)
        after = closing(closed_after)
        closings = [line for line in (before, after) if line is not None]
        if place_list.unwritten() < 1 or closing_list.unwritten() < len(closings):
            raise Refused(6)

        self.pieces += 1
        self.containers = containers
        self.used_cost = used_cost
        self.weight = weight
        if closed_after is None:
            self.open[c] = container
        else:
            self.open.pop(c, None)
        place_list.add(place)
        for line in closings:
            closing_list.add(line)
        return Answer(container.number, c, before, after)

    def report(self):
        return Report(
            self.pieces,
            self.containers,
            self.used_cost,
            sum(self.kind.cost(c) for c in self.open),
            self.weight,
            self.floor_of(self.weight),
        )


# ---------------------------------------------------------------------------------------------
# Archive lines
# ---------------------------------------------------------------------------------------------

# The place of a sort in this list is what the two top bits of its map say. With each sort go the
# widths of its fields in bytes, from bit 0 up.
SORTS = [PlaceLine, ClosingLine, HeadingLine]
WIDTHS = [
    [4, 4, 4, 1, 4, 1],
    [4, 1, 4, 4, 8, 8, 8],
    [1, 4, 1, 1, 2, 1, 8, 8, 4],
]


def write_line(line, memory):
    """Writes the line at the start of a bytearray and answers its length, leaving the rest of the
    memory alone. If that is too short, nothing is written and the refusal tells the length."""
    sort = SORTS.index(type(line))
    bits = sort << 14
    body = b""
    for bit, (value, width) in enumerate(zip(line, WIDTHS[sort])):
        if value != 0:
            bits |= 1 << bit
            body += value.to_bytes(width, "big")
    text = bits.to_bytes(2, "big") + body
    if len(memory) < len(text):
        raise Refused(12, len(text))
    memory[: len(text)] = text
    return len(text)


def read_line(data):
    """Answers the line at the start of the bytes, and its length; any further bytes play no part."""
    if len(data) < 2:
        raise Refused(13, 0)
    bits = int.from_bytes(data[:2], "big")
    sort = bits >> 14
    present = bits & 0x3FFF
    if sort == 3:
        raise Refused(14, 0)
    widths = WIDTHS[sort]
    if present >> len(widths) != 0:
        raise Refused(14, 0)
    offset = 2
    values = []
    for bit, width in enumerate(widths):
        value = 0
        if present >> bit & 1:
            if offset + width > len(data):
                raise Refused(13, offset)
            value = int.from_bytes(data[offset : offset + width], "big")
            if value == 0:
                raise Refused(15, offset)
            offset += width
        values.append(value)
    return SORTS[sort](*values), offset
