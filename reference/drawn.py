"""Draws seasons and archive lines from a fixed generator, runs them by the rules and prints what
comes out, for comparison byte for byte with another program of the same rules."""

import sys

from rules import (
    SORTS,
    WIDTHS,
    Allowance,
    Bars,
    ClosingLine,
    Finishes,
    HeadingLine,
    LineList,
    Packer,
    Piece,
    PlaceLine,
    Refused,
    Strips,
    Totes,
    read_line,
    write_line,
)

SEASONS = 2_400
SEASONS_PRINTED = 200
LONG_SEASON = 2_400
LONG_PIECES = 100_000
READINGS = 3_000
READINGS_PRINTED = 300
FIRST_READING_SEED = 10_000

WORD = 2**64 - 1

OLD_PLACE = PlaceLine(0, 0, 0, 0, 0, 0)
OLD_CLOSING = ClosingLine(0, 0, 0, 0, 0, 0, 0)


class Generator:
    """The drawing of numbers: 64 bits of state, three shifts a step."""

    def __init__(self, n):
        self.state = (n + 1) * 0x9E3779B97F4A7C15 & WORD

    def next(self):
        x = self.state
        x ^= x << 13 & WORD
        x ^= x >> 7
        x ^= x << 17 & WORD
        self.state = x
        return x >> 33

    def below(self, n):
        return self.next() % n


def checksum(text, start=0xCBF29CE484222325):
    """FNV-1a of the bytes of a text; with `start` it goes on from an earlier one."""
    h = start
    for byte in text.encode("ascii"):
        h = (h ^ byte) * 0x100000001B3 & WORD
    return h


def numbers(letter, values):
    """A line of text: a letter, and one space before each number."""
    return letter + "".join(f" {value}" for value in values) + "\n"


def hexadecimal(data):
    """A line of text with bytes; the letter alone where there are none."""
    return f"y {data.hex()}\n" if data else "y\n"


def written(line):
    """The archive bytes of a line."""
    memory = bytearray(64)
    return bytes(memory[: write_line(line, memory)])


# --- Seasons ---------------------------------------------------------------------------------


class Plan:
    """The measures and layers drawn for one season, before anything is made of them."""

    def __init__(self, s, draw):
        self.code = 1 + s % 3

        how = draw.below(6)
        if how == 0:
            self.capacity = 1 + draw.below(20)
        elif how == 1:
            self.capacity = 12
        elif how == 2:
            self.capacity = 1_000_000
        elif how == 3:
            self.capacity = 1 + draw.below(1_000_000)
        else:
            self.capacity = 50 + draw.below(1_000)

        self.class_number = 2 + s // 3 % 11
        self.piece_limit = self.class_number + draw.below(51 - self.class_number)

        spoil = draw.below(80)
        if spoil == 0:
            self.capacity = 0
        elif spoil == 1:
            self.capacity = 1_000_001
        elif spoil == 2:
            self.capacity = 4_294_967_295
        elif spoil == 3:
            self.class_number = 1
        elif spoil == 4:
            self.class_number = 13
        elif spoil == 5:
            self.class_number = 300
        elif spoil == 6:
            self.piece_limit = self.class_number - 1
        elif spoil == 7:
            self.piece_limit = 51
        elif spoil == 8:
            self.piece_limit = 300

        self.layers = []  # from the bottom up
        self.allowances = 0
        self.finishes = 1
        height = draw.below(4)
        for _ in range(height):
            sort = draw.below(2)
            if sort == 0:
                far = draw.below(8)
                extra = 999 + draw.below(3) if far == 0 else draw.below(6)
                self.layers.append((Allowance, extra))
                self.allowances += extra
            else:
                finishes = draw.below(6)
                if draw.below(3) != 0:
                    finishes += 1
                self.layers.append((Finishes, finishes))
                self.finishes = finishes

    def make(self):
        """The pile: the kind with its layers. Raises Refused at the first refusal."""
        if self.code == 1:
            pile = Bars(self.capacity, self.class_number)
        elif self.code == 2:
            pile = Totes(self.capacity, self.class_number, self.piece_limit)
        else:
            pile = Strips(self.capacity)
        for layer, measure in self.layers:
            pile = layer(measure, pile)
        return pile

    def heading(self, packer):
        return HeadingLine(
            self.code,
            self.capacity,
            0 if self.code == 3 else self.class_number,
            self.piece_limit if self.code == 2 else 0,
            self.allowances,
            self.finishes,
            packer.kind.unit,
            packer.kind.ceiling,
            packer.standing(),
        )


def draw_number(draw):
    zero = draw.below(30)
    return 0 if zero == 0 else 1 + draw.below(1_000)


def draw_first(plan, draw):
    way = draw.below(12)
    if way == 0:
        return draw.below(plan.capacity + 2)
    if way == 1:
        return plan.capacity + 1
    if way == 2:
        return (0, 1_000_000, 1_000_001, 4_294_967_295)[draw.below(4)]
    j = 1 + draw.below(plan.class_number + 1)
    d = draw.below(4)
    first = max(0, plan.capacity // j + d - 2)
    less = draw.below(2)
    if less == 1 and first > plan.allowances:
        first -= plan.allowances
    return first


def draw_second(plan, draw):
    if plan.code != 3:
        return 1 if draw.below(30) == 0 else 0
    way = draw.below(10)
    if way == 0:
        return draw.below(5_000)
    if way == 1:
        return (0, 4_096, 4_097, 4_294_967_295)[draw.below(4)]
    tall = draw.below(3)
    e = draw.below(13) if tall == 0 else draw.below(3)
    d = draw.below(3)
    return 2**e + d - 1


def draw_finish(plan, draw):
    odd = draw.below(20)
    if odd == 0:
        return (255, 4, 1, 2)[draw.below(4)]
    return draw.below(max(1, plan.finishes))


def draw_place_list(draw):
    short = draw.below(25)
    room = 0 if short == 0 else 1 + draw.below(3)
    old = draw.below(2)
    return LineList(room, [OLD_PLACE] * old)


def draw_closing_list(draw):
    short = draw.below(6)
    room = draw.below(2) if short == 0 else 2 + draw.below(2)
    old = draw.below(2)
    return LineList(room, [OLD_CLOSING] * old)


def put_text(packer, piece, place_list, closing_list):
    """Makes one put and answers its text."""
    old_places = len(place_list)
    old_closings = len(closing_list)
    parts = []
    try:
        answer = packer.put(piece, place_list, closing_list)
    except Refused as refused:
        parts.append(numbers("r", [refused.number]))
    else:
        parts.append(numbers("p", [answer.container, answer.cls]))
        if answer.before is not None:
            parts.append(numbers("b", answer.before))
        if answer.after is not None:
            parts.append(numbers("f", answer.after))
    for index in range(old_places, len(place_list)):
        line = place_list.at(index)
        parts.append(numbers("l", line))
        parts.append(hexadecimal(written(line)))
    for index in range(old_closings, len(closing_list)):
        line = closing_list.at(index)
        parts.append(numbers("c", line))
        parts.append(hexadecimal(written(line)))
    return "".join(parts)


def season(s):
    """The text of season s, and its packer (None where the pile was refused)."""
    draw = Generator(s)
    plan = Plan(s, draw)
    parts = [numbers("s", [s])]
    try:
        pile = plan.make()
    except Refused as refused:
        parts.append(numbers("x", [refused.number]))
        return "".join(parts), None

    packer = Packer(pile)
    parts.append(
        numbers("h", [pile.code, pile.classes, pile.unit, pile.ceiling, packer.standing()])
    )
    parts.append(hexadecimal(written(plan.heading(packer))))

    calls = 10 + draw.below(50)
    for _ in range(calls):
        what = draw.below(20)
        if what == 0:
            parts.append(numbers("e", packer.report()))
            continue
        number = draw_number(draw)
        first = draw_first(plan, draw)
        second = draw_second(plan, draw)
        finish = draw_finish(plan, draw)
        place_list = draw_place_list(draw)
        closing_list = draw_closing_list(draw)
        piece = Piece(number, first, second, finish)
        parts.append(put_text(packer, piece, place_list, closing_list))
    parts.append(numbers("e", packer.report()))
    return "".join(parts), packer


def long_season():
    """The long season: the texts of its puts, in order, the text of its report, and its packer."""
    draw = Generator(LONG_SEASON)
    packer = Packer(Bars(1_000, 12))
    puts = []
    for i in range(LONG_PIECES + 1):
        piece = Piece(1 + i % 1_000, 1 + draw.below(1_000), 0, 0)
        puts.append(put_text(packer, piece, LineList(1), LineList(2)))
    return puts, numbers("e", packer.report()), packer


# --- Archive lines ---------------------------------------------------------------------------


def draw_line(draw):
    sort = draw.below(3)
    values = []
    for width in WIDTHS[sort]:
        value = 0
        some = draw.below(3)
        if some != 0:
            for _ in range(width):
                value = value * 256 + draw.below(256)
        values.append(value)
    return SORTS[sort](*values)


def harmed(data, draw):
    """The bytes of a line after a drawn harm, or none."""
    data = bytearray(data)
    harm = draw.below(6)
    if harm == 1:
        data = data[: draw.below(len(data))]
    elif harm == 2:
        index = draw.below(len(data))
        data[index] = draw.below(256)
    elif harm == 3:
        data[0] = draw.below(256)
        data[1] = draw.below(256)
    elif harm == 4:
        more = 1 + draw.below(4)
        for _ in range(more):
            data.append(draw.below(256))
    elif harm == 5:
        data[draw.below(len(data))] = 0
    return bytes(data)


def reading(i):
    """The text of reading i."""
    draw = Generator(FIRST_READING_SEED + i)
    data = harmed(written(draw_line(draw)), draw)
    return hexadecimal(data) + answer_text(data)[0]


SAMPLES = [
    PlaceLine(1, 7, 3, 2, 258, 5),
    ClosingLine(258, 1, 3, 11, 66, 4, 3),
    HeadingLine(2, 1_000_000, 12, 50, 4, 2, 15_246_000_000_000, 41_052_000_000_000, 22),
]


def answer_text(data):
    """What the reader answers of these bytes, and what it did: 0 for a line, else the refusal."""
    try:
        line, length = read_line(data)
    except Refused as refused:
        return numbers("q", [refused.number, refused.detail]), refused.number
    return numbers("o", [length, SORTS.index(type(line)), *line]), 0


def counted(letter, many):
    """Reads many byte strings; answers how they ended, and the checksum of all answers."""
    seen = {0: 0, 13: 0, 14: 0, 15: 0}
    total = checksum("")
    for data in many:
        text, how = answer_text(data)
        seen[how] += 1
        total = checksum(text, total)
    counts = " ".join(str(seen[how]) for how in (0, 13, 14, 15))
    return f"{letter} {counts} {total:016x}\n"


def spoilt(line):
    """A line cut everywhere, and with each byte changed to each value."""
    data = written(line)
    parts = [hexadecimal(data)]
    memory = bytearray([7] * (len(data) - 1))
    try:
        write_line(line, memory)
    except Refused as refused:
        parts.append(numbers("w", [refused.number, refused.detail]))
    parts.append(numbers("u", [int(memory == bytes([7] * (len(data) - 1)))]))
    parts += [answer_text(data[:cut])[0] for cut in range(len(data))]
    changed = (
        data[:at] + bytes([value]) + data[at + 1 :]
        for at in range(len(data))
        for value in range(256)
    )
    parts.append(counted("b", changed))
    return "".join(parts)


def maps(behind):
    """Every map, with so many bytes behind it that are all 1."""
    return counted("m", (m.to_bytes(2, "big") + bytes([1] * behind) for m in range(65_536)))


# --- All of it -------------------------------------------------------------------------------


def archive_text():
    parts = []
    rest = []
    for i in range(READINGS):
        (parts if i < READINGS_PRINTED else rest).append(reading(i))
    parts.append(f"z {checksum(''.join(rest)):016x}\n")
    parts += [spoilt(line) for line in SAMPLES]
    parts += [maps(40), maps(10)]
    return "".join(parts)


def seasons_text():
    parts = []
    for s in range(SEASONS):
        text, _ = season(s)
        parts.append(text if s < SEASONS_PRINTED else f"k {s} {checksum(text):016x}\n")
    puts, report, _ = long_season()
    parts.append(f"k {LONG_SEASON} {checksum(''.join(puts) + report):016x}\n")
    parts.append(report)
    parts.append(puts[-1])
    return "".join(parts)


def main():
    """Prints both parts, or the one that is named: archive, seasons."""
    wanted = sys.argv[1:] or ["archive", "seasons"]
    texts = {"archive": archive_text, "seasons": seasons_text}
    sys.stdout.buffer.write("".join(texts[part]() for part in wanted).encode("ascii"))
    sys.stdout.buffer.flush()


if __name__ == "__main__":
    main()
