"""Checks rules.py against cases worked by hand and against laws that must hold on random small
inputs and on the drawn seasons. Prints ok, or stops at the first assertion that fails."""

import random
from fractions import Fraction

import drawn
from rules import (
    MOST_CLASSES,
    SORTS,
    WIDTHS,
    Allowance,
    Answer,
    Bars,
    ClosingLine,
    Finishes,
    HeadingLine,
    LineList,
    Packer,
    Piece,
    PlaceLine,
    Refused,
    Strips,
    Totes,
    read_line,
    write_line,
)


def refused(call, *arguments):
    """The number and detail of the refusal that a call must end in."""
    try:
        call(*arguments)
    except Refused as refusal:
        return refusal.number, refusal.detail
    raise AssertionError("not refused")


def put(packer, first, second=0, finish=0, number=1):
    return packer.put(Piece(number, first, second, finish), LineList(1), LineList(2))


# --- Cases worked by hand --------------------------------------------------------------------


def check_bars():
    packer = Packer(Bars(12, 3))
    places = LineList(7)
    closings = LineList(3)
    containers = []
    gained = {}
    for turn, first in enumerate([7, 5, 4, 6, 4, 3, 2], start=1):
        if turn == 4:
            assert refused(packer.put, Piece(9, 13, 0, 0), places, closings) == (3, None)
        before = len(closings)
        answer = packer.put(Piece(turn, first, 0, 0), places, closings)
        containers.append(answer.container)
        gained[turn] = [closings.at(i) for i in range(before, len(closings))]
        assert places.at(turn - 1) == (turn, first, 0, 0, answer.container, answer.cls)
    assert containers == [1, 2, 3, 2, 3, 3, 4]
    assert {turn: lines for turn, lines in gained.items() if lines} == {
        1: [(1, 1, 1, 7, 48, 1, 1)],
        4: [(2, 2, 2, 11, 48, 3, 2)],
        7: [(3, 3, 3, 11, 66, 4, 3)],
    }
    assert packer.report() == (7, 4, 4, 1, 174, 3)


def check_totes():
    totes = Totes(10, 2, 3)
    assert (totes.unit, totes.ceiling) == (30, 90)
    assert totes.weight(Piece(1, 1, 0, 0)) == 16
    packer = Packer(totes)
    assert put(packer, 1) == (1, 2, None, None)
    assert put(packer, 1) == (1, 2, None, None)
    assert put(packer, 1) == Answer(1, 2, None, ClosingLine(1, 2, 3, 3, 48, 1, 1))


def check_strips():
    strips = Strips(10)
    narrow = Piece(1, 5, 3, 0)
    wide = Piece(1, 6, 3, 0)
    assert (strips.cls(narrow), strips.weight(narrow)) == (3, 60)
    assert (strips.cls(wide), strips.weight(wide)) == (16, 72)
    for first in (5, 6):
        assert strips.cost(strips.cls(Piece(1, first, 5, 0))) == 8


def check_layers():
    for class_number in range(2, 13):
        assert Allowance(1, Bars(12, class_number)).refusal(Piece(1, 12, 0, 0)) == 3
    longer = Allowance(1, Bars(12, 3))
    assert longer.cls(Piece(1, 6, 0, 0)) == 1

    two = Finishes(2, Bars(12, 3))
    assert two.cls(Piece(1, 5, 0, 1)) == 5
    assert two.refusal(Piece(1, 5, 0, 2)) == 2
    # each finish has its own standing cost
    assert Packer(two).standing() == 2 * Packer(Bars(12, 3)).standing() == 4


def check_refusals():
    assert refused(Bars, 0, 1) == (7, None)
    assert refused(Bars, 12, 13) == (8, None)
    assert refused(Totes, 0, 1, 0) == (7, None)
    assert refused(Totes, 12, 1, 0) == (8, None)
    assert refused(Totes, 12, 3, 2) == (9, None)
    assert refused(Totes, 12, 3, 51) == (9, None)
    assert refused(Strips, 1_000_001) == (7, None)
    assert refused(Allowance, 1_001, Bars(12, 3)) == (10, None)
    assert refused(Finishes, 0, Bars(12, 3)) == (11, None)
    assert refused(Finishes, 5, Bars(12, 3)) == (11, None)
    assert refused(Finishes, 2, Finishes(3, Strips(12))) == (11, None)
    assert Finishes(4, Strips(12)).classes == MOST_CLASSES

    # the causes of a put come in rising order
    packer = Packer(Bars(12, 3))
    none = LineList(0)
    for piece, number in [
        (Piece(0, 0, 1, 1), 1),
        (Piece(1, 0, 1, 1), 2),
        (Piece(1, 0, 1, 0), 3),
        (Piece(1, 1, 1, 0), 4),
        (Piece(1, 1, 0, 0), 6),
    ]:
        assert refused(packer.put, piece, none, none) == (number, None)
    assert refused(packer.put, Piece(1, 12, 0, 0), LineList(1), none) == (6, None)
    packer.put(Piece(1, 1, 0, 0), LineList(1), none)
    packer.pieces = 100_000
    assert refused(packer.put, Piece(1, 13, 0, 0), none, none) == (3, None)
    assert refused(packer.put, Piece(1, 1, 0, 0), none, none) == (5, None)

    # an allowance does not let a large or empty first measure through
    far = Allowance(1_000, Allowance(1_000, Strips(1_000_000)))
    for first in (0, 999_500, 1_000_000, 1_000_001, 2**32 - 1):
        assert far.refusal(Piece(1, first, 1, 0)) == 3
    assert far.refusal(Piece(1, 998_000, 1, 0)) is None


def check_archive():
    line = PlaceLine(1, 258, 0, 0, 3, 2)
    memory = bytearray(b"\xee" * 20)
    assert write_line(line, memory) == 15
    assert memory.hex() == "0033" "00000001" "00000102" "00000003" "02" + "ee" * 5
    assert read_line(bytes(memory)) == (line, 15)
    short = bytearray(b"\xee" * 14)
    assert refused(write_line, line, short) == (12, 15)
    assert short == b"\xee" * 14

    for data, answer in [
        ("", (13, 0)),
        ("c0", (13, 0)),
        ("c000", (14, 0)),
        ("0040", (14, 0)),
        ("4080", (14, 0)),
        ("8200", (14, 0)),
        ("0001", (13, 2)),
        ("0003000000010000", (13, 6)),
        ("000300000000", (15, 2)),
        ("00030000000100000000", (15, 6)),
    ]:
        assert refused(read_line, bytes.fromhex(data)) == answer
    for data, sort in [("0000", PlaceLine), ("4000ff", ClosingLine), ("8000ff", HeadingLine)]:
        line, length = read_line(bytes.fromhex(data))
        assert type(line) is sort and not any(line) and length == 2


# --- Laws on random input --------------------------------------------------------------------


def random_pile(chance):
    """A small kind with up to two layers; a layer that is refused is left out."""
    capacity = chance.choice([chance.randint(1, 30), chance.randint(1, 30), 1_000_000])
    class_number = chance.randint(2, 12)
    pile = chance.choice(
        [
            lambda: Bars(capacity, class_number),
            lambda: Totes(capacity, class_number, chance.randint(class_number, 50)),
            lambda: Strips(capacity),
        ]
    )()
    for _ in range(chance.randint(0, 2)):
        try:
            if chance.random() < 0.5:
                pile = Allowance(chance.choice([0, 1, 2, 1_000]), pile)
            else:
                pile = Finishes(chance.randint(1, 4), pile)
        except Refused:
            pass
    return pile


def random_piece(chance, pile):
    first = chance.choice([chance.randint(0, 31), chance.randint(0, 1_000_001)])
    if pile.code == 3:
        second = chance.choice([chance.randint(0, 9), chance.randint(0, 4_097)])
    else:
        second = 0 if chance.random() < 0.95 else 1
    return Piece(chance.randint(1, 50), first, second, chance.choice([0, 0, 1, 2, 3]))


def check_answers(pile, piece):
    """What every kind must tell of any piece, admitted or not."""
    assert 1 <= pile.classes <= MOST_CLASSES
    assert 1 <= pile.unit and 1 <= pile.ceiling <= 2**48
    for c in (0, pile.classes + 1):
        assert pile.cost(c) == pile.standing(c) == 0
        assert not pile.fits(c, 0, 0, piece) and not pile.full(c, 10**6, 10**6)
    for c in range(1, pile.classes + 1):
        assert pile.cost(c) >= 1 and pile.unit * pile.cost(c) <= 2**44
        assert pile.standing(c) in (0, pile.cost(c))
        assert not pile.full(c, 0, 0)
    zero = pile.refusal(piece._replace(first=0))
    assert zero is not None
    assert pile.refusal(piece._replace(first=1_000_001)) == zero
    if pile.refusal(piece) is None:
        c = pile.cls(piece)
        assert 1 <= c <= pile.classes
        assert 1 <= pile.weight(piece) <= 2**44 and 1 <= pile.load(piece) <= 1_000_000
        assert pile.fits(c, 0, 0, piece)
        assert pile.standing(c) != 0 or pile.full(c, 1, pile.load(piece))
    else:
        assert pile.refusal(piece) in (2, 3, 4)
        assert pile.cls(piece) == pile.weight(piece) == pile.load(piece) == 0
        assert not any(pile.fits(c, 0, 0, piece) for c in range(1, pile.classes + 1))


def check_ledger(packer):
    """The bound on what was used, and the floor's own meaning."""
    report = packer.report()
    kind = packer.kind
    assert kind.unit * report.used_cost <= (
        kind.ceiling * report.floor + kind.unit * packer.standing()
    )
    assert kind.ceiling * report.floor >= report.weight
    assert report.floor == 0 or kind.ceiling * (report.floor - 1) < report.weight


def check_random_packing(chance):
    pile = random_pile(chance)
    packer = Packer(pile)
    containers = {}  # number -> class and pieces
    closed = {}  # number -> closing line
    for _ in range(chance.randint(1, 80)):
        piece = random_piece(chance, pile)
        check_answers(pile, piece)
        places = LineList(chance.choice([0, 1, 2, 2, 3]))
        closings = LineList(chance.choice([0, 1, 2, 3]))
        earlier = packer.report(), dict(packer.open)
        try:
            answer = packer.put(piece, places, closings)
        except Refused as refusal:
            assert refusal.number in (2, 3, 4, 6)
            assert (packer.report(), packer.open) == earlier
            assert len(places) == len(closings) == 0
            continue
        lines = [line for line in (answer.before, answer.after) if line is not None]
        assert places.lines == [(*piece, answer.container, answer.cls)]
        assert closings.lines == lines
        _, pieces = containers.setdefault(answer.container, (answer.cls, []))
        pieces.append(piece)
        for line in lines:
            assert line.container not in closed
            assert (line.used_cost, line.floor) == (packer.used_cost, packer.report().floor)
            closed[line.container] = line
        check_ledger(packer)

    report = packer.report()
    everything = [piece for _, pieces in containers.values() for piece in pieces]
    assert sorted(containers) == list(range(1, report.containers + 1))
    assert report.pieces == len(everything)
    assert report.weight == sum(pile.weight(piece) for piece in everything)
    assert report.used_cost == sum(pile.cost(c) for c, _ in containers.values())
    assert report.open_cost == sum(
        pile.cost(c) for number, (c, _) in containers.items() if number not in closed
    )
    for number, (c, pieces) in containers.items():
        weight = sum(pile.weight(piece) for piece in pieces)
        assert all(pile.cls(piece) == c for piece in pieces)
        assert pile.allowed(pieces, pile.cost(c))
        assert weight <= pile.ceiling * pile.cost(c)
        if number in closed:
            level = sum(pile.load(piece) for piece in pieces)
            assert closed[number][:5] == (number, c, len(pieces), level, weight)
            assert weight >= pile.unit * pile.cost(c)


def check_heaviest_container():
    """No allowed bar or tote of a small capacity weighs more than the ceiling. The heaviest is found
    over all lists of pieces: after n rounds best[total] is the most that n pieces or fewer can weigh
    whose first measures sum to total or less."""
    for class_number in range(2, 13):
        for capacity in (1, 7, 12, 25, 43):
            for kind in (
                Bars(capacity, class_number),
                Totes(capacity, class_number, class_number),
            ):
                limit = getattr(kind, "piece_limit", capacity)
                weights = [kind.weight(Piece(1, a, 0, 0)) for a in range(capacity + 1)]
                best = [0] * (capacity + 1)
                for _ in range(limit):
                    best = [
                        max([best[total]] + [best[total - a] + weights[a] for a in range(1, total + 1)])
                        for total in range(capacity + 1)
                    ]
                assert best[capacity] <= kind.ceiling


def check_ceiling_factors():
    """The factors in the table, found again from the worst bar: one piece just over a half, one just
    over a third, one just over a seventh, as far as these have classes below the last, and the rest
    of the bar taken by pieces of the last class. Measured in parts of the capacity."""
    for class_number in range(2, 13):
        bars = Bars(1, class_number)
        rest = Fraction(1)
        worst = Fraction(0)
        for part in (2, 3, 7):
            if part - 1 < class_number:
                worst += Fraction(bars.scale, part - 1)
                rest -= Fraction(1, part)
        worst += class_number * bars.multiple * rest
        assert worst == bars.factor


def check_random_lines(chance):
    for _ in range(2_000):
        sort = chance.randrange(3)
        values = [
            chance.choice([0, 1, chance.randrange(256**width), 256**width - 1])
            for width in WIDTHS[sort]
        ]
        line = SORTS[sort](*values)
        memory = bytearray(chance.randbytes(50))
        tail = bytes(memory)
        length = write_line(line, memory)
        assert length == 2 + sum(w for v, w in zip(values, WIDTHS[sort]) if v != 0)
        assert memory[length:] == tail[length:]
        assert read_line(bytes(memory)) == (line, length)
        assert type(read_line(bytes(memory))[0]) is SORTS[sort]
        exact = bytes(memory[:length])
        assert read_line(exact) == (line, length)
        cut = chance.randrange(length)
        number, offset = refused(read_line, exact[:cut])
        assert number == 13 and offset <= cut
        assert refused(write_line, line, bytearray(cut)) == (12, length)

        # whatever is read is written back as the same bytes
        noise = bytearray(chance.randbytes(50))
        noise[0] &= 0xC0
        noise[1] &= chance.randrange(256)
        try:
            line, length = read_line(bytes(noise))
        except Refused as refusal:
            assert refusal.number in (14, 15)
        else:
            again = bytearray(length)
            assert write_line(line, again) == length and again == noise[:length]


def check_drawn_seasons():
    for s in range(0, drawn.SEASONS, 4):
        _, packer = drawn.season(s)
        if packer is not None:
            check_ledger(packer)


def main():
    check_bars()
    check_totes()
    check_strips()
    check_layers()
    check_refusals()
    check_archive()
    chance = random.Random(20240501)
    for _ in range(400):
        check_random_packing(chance)
    check_heaviest_container()
    check_ceiling_factors()
    check_random_lines(chance)
    check_drawn_seasons()
    print("ok")


if __name__ == "__main__":
    main()
