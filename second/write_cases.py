"""Writes the cases of writing: python3 write_cases.py > cases"""
from dataclasses import replace

import cases as c
import model as m
from cases import BIG, HIGHEST, MOST, RECORDS, case, note, part
from disk_k import disk_k
from model import CHS
from read_cases import D, EXTENDED, STEP, X, chain, chained, disk, empty_first, records_of, with_header

UNSET = (0, 0, 0)
WIDE = (1023, 255, 63)
ROOM = 13000
near = c.Near()
table = old = None

# What an edit changes: a field of an entry, or of a logical partition.
FLAG, TYPE, START, SECTORS, PLACE, LINK, NO_LINK, NO_LAST, LAST = range(1, 10)
SIGN = (0, 1, 0xAA56)


def lend(x, over):
    """The table is read from x and written over the other extract."""
    global table, old
    near.lend(x + over)
    table, old = m.read_table(x), over


def write(*edits, word="write_table", align=2048, geometry=UNSET, handed=None, disk_size=None, room=ROOM, fill=238):
    """A case on the table, with so many lent bytes; an edit is a partition's number, a field and a value."""
    case("o", room, fill)
    case(word, align, *geometry, len(table.logicals) if handed is None else handed,
         table.disk_size if disk_size is None else disk_size, len(old), *(n for edit in edits for n in edit))


def both(*edits, **given):
    """The table, then its header alone."""
    write(*edits, **given)
    write(*edits, word="write_header", **given)


def length(records):
    return 24 + 516 * records


def back(records):
    """What O reads as after a case that wrote so many records."""
    case("read_o", length(records))


def others(n, first=1, step=3, disk_size=D, size=512):
    """An extract full of other records."""
    return disk(disk_size, {first + step * k: c.marked(k) for k in range(n)}, size)


def source(n, **given):
    return chained(records_of(chain(n)), **given)


EMPTY = disk(D, {})
K = disk_k()
NO_EXTENDED = with_header(c.header_of(part(0x83, 2048, 2048), part(0x07, 9, 9, 0x80)), D)


# ---------------------------------------------------------------- what is written


def count_cases():
    note("writing: 0, 1, 2, 3, 23 and 24 logical partitions, over an empty extract and read back")
    for n in (0, 1, 2, 3, MOST - 1, MOST):
        lend(source(n), EMPTY)
        both()
        write()
        back(n + 1)
        write(geometry=WIDE)
        back(n + 1)
    note("writing: disk K over itself, over nothing, over another sector size")
    for over in (K, disk(20480, {}), disk(20480, {}, 4096), disk(20480, {0: c.marked(1), 4096: c.marked(2), 4097: c.marked(3)})):
        lend(K, over)
        both()
        write(room=2000)
        back(max(2, m.little(over[8:12])))
    note("writing: sector sizes")
    for size in (512, 1024, 2048, 4096):
        for n in (0, 2):
            lend(source(n, size=size), disk(D, {5: c.marked(5)}, size))
            both(room=2100)
        lend(source(1), disk(D, {}, size))
        both(room=2100)
        back(1)
    note("writing: no extended entry, without and with logical partitions")
    lend(NO_EXTENDED, others(2))
    both(room=2000)
    for handed in (1, MOST):
        write(handed=handed, room=2000)
        write(handed=handed, geometry=WIDE, room=2000)
    write((5, FLAG, 1), (5, PLACE, BIG), handed=2, room=2000)
    lend(source(3), others(2))
    for geometry in (UNSET, WIDE, (1, 1, 1)):
        write((1, TYPE, 0x83), geometry=geometry)
        write((1, TYPE, 0), (5, FLAG, 1), (6, PLACE, BIG), (7, NO_LINK, 0), geometry=geometry)
    back(3)
    note("writing: the types of an extended entry, and which counts")
    for kind in (0x05, 0x0F, 0x85, 0xC5, 0xD5, 0x06, 0x04):
        write((1, TYPE, kind))
    write((1, TYPE, 0x83), (2, TYPE, 0x85), (2, START, 300), (3, TYPE, 0x05))
    write((4, TYPE, 0x05), (4, START, 20))


def place_cases():
    note("writing: the first logical partition goes to X, without link sectors and last link CHS")
    lend(source(2), others(3))
    for place in (0, 1, X - 1, X + 1, D, BIG):
        write((5, PLACE, place))
    write((5, LINK, 77))
    write((5, LINK, 77), (5, PLACE, 9), geometry=WIDE)
    for edits in (((5, LAST, 0),), ((5, LAST, 0), (5, LINK, 77)), ((6, LAST, 0),), ((6, LAST, 0), (6, NO_LINK, 0))):
        for geometry in (UNSET, WIDE):
            write(*edits, geometry=geometry)
    write((5, LAST, 0), (5, LINK, 77), room=0)
    write((1, START, 4000))
    write((1, START, 5500))
    note("writing: X = 0, the EBR over record 0")
    for n in (1, 2, MOST):
        lend(source(n), others(3))
        write((1, START, 0), room=length(MOST + 3))
        back(n + 3)
        write((1, START, 0), geometry=WIDE, room=length(MOST + 3))
        write((1, START, 0), room=length(n + 3) - 1)
        write((1, START, 0), room=length(n + 3))
    note("writing: equal EBR places, the later one wins")
    lend(source(3), others(3))
    for edits in (((6, PLACE, X),), ((7, PLACE, X),), ((7, PLACE, X + STEP),), ((6, PLACE, X), (7, PLACE, X)), ((6, PLACE, 0),),
                  ((7, PLACE, 0),), ((6, PLACE, 4),), ((7, PLACE, 7),), ((6, PLACE, 1), (7, PLACE, 4))):
        write(*edits)
        write(*edits, geometry=WIDE)
    lend(source(MOST), others(RECORDS - MOST))
    write(*((k, PLACE, X) for k in (6, 10, HIGHEST - 1, HIGHEST)), room=40000)
    note("writing: an EBR before X has link start 0, a partition before its EBR start 0")
    lend(source(3), EMPTY)
    for edits in (((6, PLACE, X - 1),), ((7, PLACE, X - 1),), ((6, PLACE, X + 1),), ((6, START, 5099),), ((6, START, 5100),),
                  ((6, START, 5101),), ((5, START, 0),), ((7, START, 5199),), ((7, START, BIG),), ((6, PLACE, 5300),)):
        write(*edits)
        back(4)
    note("writing: EBR places at 8,388,608 and above, and near 2^32")
    for place in (8388607, 8388608, 8388609, 4194304, 2097152, 1048576, 16777216, 2 ** 31 - 1, 2 ** 31, BIG - 401, BIG - 2, BIG - 1):
        for size in (512, 4096):
            lend(source(2, disk_size=BIG, size=size), disk(BIG, {7: c.marked(7), BIG - 1: c.marked(8)}, size))
            write((6, PLACE, place), room=3000)
        write((1, START, place), room=3000)
        write((1, START, place), (6, PLACE, BIG - 3), (6, START, BIG), room=3000)
    for start in (8388608, BIG - 250):
        extended = part(0x05, start, 240)
        x = chained(records_of(chain(3, start, 80), start, 80), disk_size=BIG, extended=extended)
        for over in (disk(BIG, {}), disk(BIG, {0: c.marked(1), start + 80: c.marked(2), start + 81: c.marked(3)})):
            lend(x, over)
            write()
            back(4 if over == disk(BIG, {}) else 5)
    note("writing: the old extract's D and sector size decide; the table keeps its own")
    lend(source(2), disk(5101, {}, 1024))
    write(room=2000)
    write(disk_size=0, room=2000)
    write(disk_size=BIG, room=2000)
    for d in (1, 2, X, X + 1, 5100):
        lend(source(2), disk(d, {}))
        both(disk_size=BIG, room=2000)


def geometry_cases():
    note("writing: addresses by a complete geometry, else the table's")
    for n in (1, 3):
        lend(source(n), others(1))
        for geometry in (UNSET, WIDE, (1023, 16, 63), (1024, 255, 63), (1023, 255, 64), (0, 255, 63), (1023, 0, 63), (1023, 255, 0),
                         (1, 255, 63), (852, 2, 3), (65535, 255, 63), (65535, 255, 255)):
            write(geometry=geometry, room=3000)
    note("writing: the geometry's refusals, of each address in turn")
    lend(source(3), others(1))
    for number, field, value in (
            (5, START, 16450560), (5, START, 16450559), (5, SECTORS, 16450560), (5, SECTORS, 16445550), (5, SECTORS, 16445551),
            (5, SECTORS, 0), (5, START, 0), (5, SECTORS, BIG), (5, SECTORS, BIG - 5010), (5, SECTORS, BIG - 5009), (6, START, 16450560),
            (6, SECTORS, BIG), (6, PLACE, 16450560), (6, PLACE, 16450559), (6, LINK, 0), (6, LINK, BIG), (6, LINK, 16445460),
            (6, LINK, 16445461), (7, PLACE, 16450560), (7, LINK, BIG), (7, LINK, 16450560), (1, START, 16450560), (1, START, BIG)):
        write((number, field, value), geometry=WIDE, room=3000)
        write((number, field, value), geometry=(700, 255, 63), room=3000)
    for edit in ((5, START, 0), (6, PLACE, 0), (6, LINK, 0), (7, SECTORS, 0)):
        write(edit, (7, SECTORS, 0), geometry=(1, 1, 1), room=3000)
        write(edit, geometry=UNSET, room=3000)
    write((5, SECTORS, 0), (5, START, 0), geometry=WIDE, room=3000)
    for geometry in ((1, 1, 1), (10, 2, 3), (851, 2, 3), (850, 2, 3), (868, 2, 3), (880, 2, 3), (885, 2, 3), (1, 79, 63), (1, 82, 63),
                     (1022, 1, 5), (1023, 1, 5), (1023, 1, 6)):
        write(geometry=geometry, room=3000)
    lend(source(MOST), others(1))
    for edits in (((HIGHEST, SECTORS, BIG),), ((HIGHEST, LINK, 0), (HIGHEST, PLACE, 0)), ((HIGHEST, START, 16450560),),
                  ((HIGHEST - 1, SECTORS, BIG), (HIGHEST, START, 16450560)),
                  ((HIGHEST - 1, START, 16450560), (HIGHEST, SECTORS, BIG)), ((5, START, 16450560), (HIGHEST, SECTORS, BIG))):
        write(*edits, geometry=WIDE, room=14000)
        write(*edits, room=14000)
    note("writing: missing link fields, with and without a complete geometry")
    for n, numbers in ((1, (5,)), (3, (5, 6, 7)), (MOST, (5, 6, HIGHEST - 1, HIGHEST))):
        lend(source(n), others(1))
        for k in numbers:
            for edits in (((k, NO_LINK, 0),), ((k, NO_LAST, 0),), ((k, NO_LINK, 0), (k, NO_LAST, 0))):
                for geometry in (UNSET, WIDE, (1023, 255, 64)):
                    write(*edits, geometry=geometry, room=length(n + 2))
    lend(source(1), EMPTY)
    for geometry in (UNSET, WIDE):
        write(handed=2, geometry=geometry)
        write((6, START, 9), (6, SECTORS, 1), handed=2, geometry=geometry)
        write((6, START, 9), (6, SECTORS, 1), (6, LINK, 1), handed=2, geometry=geometry)
        write((6, START, 9), (6, SECTORS, 1), (6, LINK, 1), (6, PLACE, 5), handed=2, geometry=geometry)


# ---------------------------------------------------------------- room


def room_cases():
    note("writing: buffers short by one, full, and longer")
    for n, over, records in ((0, EMPTY, 1), (1, EMPTY, 2), (2, EMPTY, 3), (MOST, EMPTY, MOST + 1), (2, others(5), 8), (2, source(3), 4),
                             (3, source(2), 4), (0, others(RECORDS - 1), RECORDS), (1, others(RECORDS - 2), RECORDS),
                             (MOST, others(RECORDS - 1 - MOST), RECORDS), (MOST, source(MOST), MOST + 1)):
        lend(source(n), over)
        for room in (0, 1, 23, 24, length(records) - m.STORE, length(records) - 1, length(records), length(records) + 1, length(records) + 700):
            write(room=room, fill=room % 251 + 1)
        back(records)
    for over, records in ((EMPTY, 1), (others(5), 6), (source(3), 4), (others(RECORDS - 1), RECORDS)):
        lend(source(2), over)
        for room in (0, 23, length(records) - 1, length(records), length(records) + 9):
            write(word="write_header", room=room)
    note("writing: a 65th record")
    for n, over in ((0, others(RECORDS)), (0, others(RECORDS, 0)), (0, others(RECORDS - 1)), (1, others(RECORDS - 1)),
                    (1, others(RECORDS - 2)), (1, others(RECORDS - 1, 0)),
                    (1, others(RECORDS, 0)), (MOST, others(RECORDS - MOST)), (MOST, others(RECORDS - MOST, 0)),
                    (MOST, others(RECORDS - 1 - MOST)), (MOST, others(RECORDS, 0)), (MOST, others(RECORDS)),
                    (1, others(RECORDS, 0, 50, 20000)), (1, disk(D, {**{k: c.marked(k) for k in range(RECORDS - 1)}, X: c.marked(9)})),
                    (2, disk(D, {**{k: c.marked(k) for k in range(RECORDS - 1)}, X: c.marked(9)})),
                    (MOST, disk(D, {**{k: c.marked(k) for k in range(RECORDS - MOST)}, **{X + STEP * k: c.marked(k) for k in range(MOST)}})),
                    (MOST, disk(D, {**{k: c.marked(k) for k in range(RECORDS + 1 - MOST)},
                                   **{X + STEP * k: c.marked(k) for k in range(MOST - 1)}}))):
        lend(source(n), over)
        both(room=length(RECORDS))
        both(room=length(RECORDS) - 1)
        write(room=0)
    lend(source(3), others(RECORDS - 3))
    write(room=length(RECORDS))
    write((6, PLACE, X), room=length(RECORDS))
    write((6, PLACE, X), room=length(RECORDS) - 1)
    write((6, PLACE, 0), room=length(RECORDS))
    write((7, PLACE, 1), room=length(RECORDS))
    write((6, PLACE, 1), (7, PLACE, 4), room=length(RECORDS))


# ---------------------------------------------------------------- refusals


def refusal_cases():
    note("writing: each refusal alone, then with the next ones of document 01's order")
    full = others(RECORDS)
    # What gives each refusal: edits, and what else is given; the old extract and the room decide the rest.
    flagged = (1, FLAG, 0x81)
    none = disk(0, {})
    for n in (2, MOST):
        lend(source(n), others(2))
        both(room=20000)
        for handed in (MOST + 1, MOST + 2, 1000):
            both(handed=handed, room=20000)
            write(SIGN, flagged, handed=handed, geometry=(1, 1, 1), room=0)
        for sign in (0xAA54, 0x0055, 0x55AA, 0xAB55, 0):
            both((0, 1, sign), room=20000)
        for number in (1, 2, 3, 4):
            for flag in (1, 0x7F, 0x81, 255):
                both((number, FLAG, flag), room=20000)
            both((number, FLAG, 0x80), room=20000)
        both(SIGN, flagged, room=20000)
        both(flagged, geometry=(1, 1, 1), room=20000)
        both(flagged, (5, FLAG, 1), room=20000)
        both(SIGN, room=0)
        both(flagged, room=0)
        for over in (others(2)[:-1], b"", c.broken(others(2), ("size", 0, 8192)), c.broken(others(2), ("D", 4, 0)), others(2) + b"\0"):
            lend(source(n), over)
            both(room=20000)
            both(SIGN, flagged, room=0)
            both(handed=MOST + 1, room=20000)
        lend(source(n), none)
        both(room=20000)
        both(SIGN, room=20000)
        both(flagged, room=20000)
        both(geometry=(1, 1, 1), room=0)
        write((5, FLAG, 1), room=20000)
        write((1, TYPE, 0x83), room=20000)
    note("writing: per logical partition 4, 2, 18, at the first, the second and the last")
    for n in (2, MOST):
        for over, room in ((others(2), 20000), (others(2), 0), (full, 40000)):
            lend(source(n), over)
            for k in (5, 6, n + 4):
                for edits in (((k, FLAG, 1),), ((k, FLAG, 0x81),), ((k, FLAG, 0x80),), ((k, PLACE, D),), ((k, PLACE, D - 1),), ((k, PLACE, BIG),),
                              ((k, NO_LINK, 0),), ((k, NO_LAST, 0),), ((k, FLAG, 1), (k, PLACE, D)), ((k, PLACE, D), (k, NO_LINK, 0)),
                              ((k, FLAG, 1), (k, NO_LINK, 0))):
                    write(*edits, room=room)
                write((k, FLAG, 1), geometry=(1, 1, 1), room=room)
                write((k, FLAG, 1), geometry=WIDE, room=room)
                write((k, PLACE, 20000000), geometry=WIDE, room=room)
            write((1, START, D), room=room)
            write((1, START, D - 1), room=room)
            write((5, FLAG, 1), (1, START, D), room=room)
            write((1, START, D), (6, NO_LINK, 0), room=room)
    note("writing: one logical partition's refusals before the next one's")
    lend(source(4), others(2))
    wrong = {4: lambda k: (k, FLAG, 1), 2: lambda k: (k, PLACE, D), 18: lambda k: (k, NO_LINK, 0)}
    for a in (5, 6, 7):
        for first in wrong.values():
            for second in wrong.values():
                write(first(a), second(a + 1), room=4000)
    for a in (6, 7, 8):
        write(wrong[18](a), wrong[4](a - 1), room=4000)
        write(wrong[18](a), wrong[2](a - 1), room=4000)
        write(wrong[18](a), wrong[4](a), room=4000)
    note("writing: the geometry's refusal of the last before the flag of the first, 22 before 19")
    write((5, FLAG, 1), (8, SECTORS, BIG), geometry=WIDE, room=4000)
    write((5, FLAG, 1), (8, START, 20000000), geometry=WIDE, room=4000)
    write((5, FLAG, 1), (8, START, 20000000), geometry=UNSET, room=4000)
    write((6, NO_LINK, 0), (8, PLACE, 16450560), geometry=WIDE, room=4000)
    lend(source(4), full)
    both(room=0)
    both(room=40000)
    write((8, NO_LINK, 0), room=0)


def removed_cases():
    note("writing: after the only logical partition is gone its EBR stays and reads back")
    lend(K, K)
    write(handed=0, room=1100)
    back(2)
    lend(K, disk(20480, {}))
    write(handed=0, room=1100)
    back(1)
    for n in (2, 3, MOST):
        lend(source(n), source(n))
        for handed in (n - 1, 1, 0):
            write(handed=handed)
            back(n + 1)
            write(handed=handed, geometry=WIDE)
            back(n + 1)


def empty_cases():
    note("writing: a first EBR without a partition, alone and before others")
    for n in (1, 3):
        x = chained(records_of(empty_first(n)))
        lend(x, x)
        for geometry in (UNSET, WIDE):
            write(geometry=geometry)
            back(n + 1)
        write(handed=n - 1)
        back(n + 1)


def seeded_cases():
    note("writing: seeded")
    rng = c.Seeded(707)
    for _ in range(20):
        n = rng.of((1, 2, 3, 5, 9))
        count = rng.below(30)
        lend(source(n), others(count, rng.below(3), rng.of((1, 7, 100, 250))))
        for _ in range(6):
            edits = [(rng.between(5, n + 4), rng.of((FLAG, START, SECTORS, PLACE, LINK, NO_LINK, NO_LAST, PLACE)),
                      rng.of((0, 1, 0x80, 128 * rng.below(2), X + rng.below(3000), rng.below(D), rng.below(BIG))))
                     for _ in range(rng.below(4))]
            edits = [(k, f, v % 256 if f == FLAG else v) for k, f, v in edits]
            write(*edits, geometry=rng.of((UNSET, UNSET, WIDE, (500, 16, 63))), room=rng.of((length(n + count + 1), 30000, 25000)))


if __name__ == "__main__":
    for section in (count_cases, place_cases, geometry_cases, room_cases, refusal_cases, removed_cases, empty_cases, seeded_cases):
        section()
    print("\n".join(c.lines))
