"""Writes the cases of lookup, small changes and push: python3 table_cases.py > cases"""
from dataclasses import replace

import cases as c
import model as m
from cases import BIG, HIGHEST, MOST, case, note, part
from disk_k import disk_k
from read_cases import EXTENDED, chain, chained, disk, empty_first, records_of, with_header

UNSET = (0, 0, 0)
near = c.Near()
table = None


def lend(x, second=b""):
    """X is lent, a second extract after it; the table that it reads as is kept for the cases that follow."""
    global table
    near.lend(x + second)
    table = m.read_table(x)


def on_table(word, *numbers, align=2048, geometry=UNSET, handed=None, disk_size=None):
    """A case on the table, with another count or D where one is given."""
    case(word, align, *geometry, len(table.logicals) if handed is None else handed,
         table.disk_size if disk_size is None else disk_size, *numbers)


def one_extended(start, sectors, n=0, disk_size=BIG, step=1):
    """A disk with an extended entry and n logical partitions at its start."""
    ebrs = records_of(chain(n, start, step), start, step) if n else {}
    return chained(ebrs, disk_size=disk_size, extended=part(0x05, start, sectors))


NO_EXTENDED = with_header(c.header_of(part(0x83, 2048, 2048)))
FULL = chained(records_of(chain(MOST)))

# ---------------------------------------------------------------- lookup and small changes


def lookup_cases():
    note("lookup: numbers and counts")
    for x in (disk_k(), NO_EXTENDED, chained(records_of(chain(3))), FULL):
        lend(x)
        on_table("len")
        for number in (0, 1, 2, 4, 5, 6, 7, 8, HIGHEST - 1, HIGHEST, HIGHEST + 1, HIGHEST + 2, 255, 256, BIG, BIG + 2):
            on_table("get", number)
    for handed in (MOST, MOST + 1, MOST + 2, 100):
        on_table("len", handed=handed)
        on_table("get", 1, handed=handed)
        on_table("get", 0, handed=handed)
        on_table("find", 0, handed=handed)
        on_table("check_geometry", handed=handed, geometry=(1, 1, 1))
        on_table("cylinder_size", handed=handed, geometry=(1, 1, 1))
        on_table("remove", 5, handed=handed)
        on_table("remove", 0, handed=handed)
        on_table("remove_at", 5010, handed=handed)
        on_table("push_all", 0x83, 8192, 4096, handed=handed)

    note("lookup: geometry")
    lend(disk_k())
    for geometry in ((0, 0, 0), (1, 1, 1), (0, 1, 1), (1, 0, 1), (1, 1, 0), (1023, 255, 63), (1024, 255, 63), (1023, 255, 64),
                     (65535, 1, 1), (1, 255, 1), (1, 1, 255), (1022, 254, 62), (65535, 255, 255)):
        on_table("check_geometry", geometry=geometry)
        on_table("cylinder_size", geometry=geometry)

    note("lookup: the partition of a sector")
    lend(disk_k())
    for sector in (0, 2048, 4095, 4096, 4097, 6143, 6144, 6145, 8191, 8192, 20479, 20480, BIG):
        on_table("find", sector)
    lend(chained(records_of(chain(3)), more=(part(0x83, 100, 50), part(0x82, 140, 50), part(0x83, 5100, 20))))
    for sector in (0, 99, 100, 139, 140, 149, 150, 189, 190, 4999, 5000, 5009, 5010, 5089, 5090, 5100, 5109, 5110, 5119, 5120,
                   5188, 5189, 5210, 5287, 5288, 8999, 9000, BIG):
        on_table("find", sector)
        on_table("remove_at", sector)
    lend(chained(records_of(chain(3)), extended=part(0x83, 5100, 20), more=(EXTENDED, part(0x0F, 5100, 50))))
    for sector in (5099, 5100, 5119, 5120, 5149, 5150, 5010, 5288):
        on_table("find", sector)
    note("lookup: a second extended entry is never answered")
    lend(chained(records_of(chain(2)), more=(part(0x85, 20, 30), part(0x83, 25, 30))))
    for sector in (19, 20, 25, 49, 50, 54, 55, 5010, 5089, 5090, 5110):
        on_table("find", sector)
        on_table("remove_at", sector)
    note("lookup: sums beyond 32 bits, reached or not")
    lend(with_header(c.header_of(part(0x83, BIG - 5, 10), part(0x83, 100, 50), part(0, 300, BIG), part(0x83, BIG - 9, 9))))
    for sector in (99, 100, 149, 150, 300, BIG - 10, BIG - 9, BIG - 6, BIG - 5, BIG):
        on_table("find", sector)
        on_table("remove_at", sector)
    lend(with_header(c.header_of(part(0x83, 100, BIG), part(0x83, 10, 500), part(0x83, 64, 0), part(0x83, 700, BIG - 700))))
    for sector in (9, 10, 64, 99, 100, 509, 510, 700, BIG - 1, BIG):
        on_table("find", sector)
    ebrs = chain(3)
    ebrs[1] = replace(ebrs[1], partition=part(0x83, 10, BIG))
    lend(chained(records_of(ebrs), extended=replace(EXTENDED, sectors=BIG - 5000)))
    for sector in (4999, 5000, 5010, 5089, 5090, 5109, 5110, 5210, BIG - 1, BIG):
        on_table("find", sector)
        on_table("remove_at", sector)
    ebrs[1] = replace(ebrs[1], partition=part(0, 10, BIG))
    lend(chained(records_of(ebrs), extended=replace(EXTENDED, sectors=BIG - 4999)))
    for sector in (4999, 5000, BIG):
        on_table("find", sector)

    note("removal")
    for x in (disk_k(), NO_EXTENDED, chained(records_of(chain(3))), FULL):
        lend(x)
        for number in (0, 1, 4, 5, 6, 7, 8, HIGHEST, HIGHEST + 1, 255, BIG):
            on_table("remove", number, align=7, geometry=(1, 2, 3))
    lend(FULL)
    for sector in (0, 5000, 5010, 5089, 5090, 7310, 7366, 7367, 8999):
        on_table("remove_at", sector)


def from_cases():
    note("new and updated tables")
    for x in (disk_k(), disk(0, {}), disk(BIG, {}, 4096), disk(7, {6: c.marked(3)}, 1024), disk_k()[:1055], b"", disk_k() + b"\0",
              c.broken(disk_k(), ("size", 0, 8192)), c.broken(disk_k(), ("D", 4, 0))):
        near.lend(x)
        case("new_from", 1, 2, 3, 4)
        case("new_from", 255, 0, 255, 0)
    for first in (disk_k(), chained(records_of(chain(2)))):
        for second in (disk(0, {}), disk(BIG, {}, 4096), disk_k(), disk_k()[:1055], b"", disk(5, {4: c.marked(9)}, 2048)):
            lend(first, second)
            on_table("update_from", len(second), align=9, geometry=(3, 2, 1))
            on_table("update_from", len(second), handed=MOST)
            on_table("update_from", len(second), handed=MOST + 1)


def chs_cases():
    note("the four addresses of a logical partition")
    for start, sectors, ebr, link in (
            (10, 80, 5000, 100), (0, 1, 5000, 1), (0, 0, 5000, 0), (10, 0, 5000, 0), (10, BIG - 5109, 5000, 1),
            (10, BIG - 5109 + 1, 5000, 1), (10, BIG, 5000, 1), (10, 80, 5000, BIG), (10, 80, 5000, BIG - 5099),
            (10, 80, 5000, BIG - 5098), (16000000, 80, 5000, 9), (16445449, 1, 5000, 9), (16445449, 11, 5000, 9),
            (16445450, 11, 5000, 9), (16445459, 11, 5000, 9), (16445460, 11, 5000, 9), (10, 16445450, 5000, 9),
            (10, 16445451, 5000, 9), (10, 80, 5000, 16445460), (10, 80, 5000, 16445461)):
        ebrs = chain(2)
        ebrs[0] = replace(ebrs[0], partition=replace(ebrs[0].partition, starting_lba=start + 100, sectors=sectors),
                          link=replace(ebrs[0].link, sectors=link))
        ebrs[1] = replace(ebrs[1], partition=replace(ebrs[1].partition, starting_lba=start, sectors=sectors))
        lend(chained(records_of(ebrs), disk_size=BIG))
        for at in (0, 1):
            on_table("update_chs", at, geometry=(1023, 255, 63))
        on_table("update_chs", 1, geometry=(1024, 255, 63))
        on_table("update_chs", 1, geometry=(10, 255, 63))
    lend(chained(records_of(chain(2)), disk_size=BIG))
    for geometry in ((0, 0, 0), (10, 0, 3), (10, 2, 0), (10, 2, 3), (1, 255, 63), (0, 255, 63), (65535, 255, 255), (1023, 1, 5),
                     (1023, 1, 1), (1021, 1, 5), (1036, 1, 5), (849, 2, 3), (852, 2, 3), (864, 2, 3), (866, 2, 3)):
        for at in (0, 1):
            on_table("update_chs", at, geometry=geometry)
    on_table("update_chs", 2, geometry=(1, 1, 1), handed=3)


# ---------------------------------------------------------------- push


def push(start, sectors, sys=0x83, word="push", **given):
    on_table(word, sys, start, sectors, **given)


def push_cases():
    note("push: K's numbers")
    lend(disk_k())
    for start, sectors in ((8192, 4096), (8191, 4096), (16384, 4096), (16384, 4097), (16385, 4096), (2048, 4096), (6144, 4096),
                           (0, 4096), (8192, 2049), (8192, 2048), (8192, 0), (16384, 2049), (16383, 4096), (4096, 16384),
                           (4096, 16385), (4097, 16384), (14337, 4096), (12289, 6144), (12289, 6145)):
        push(start, sectors, word="push_all")
    for sys in (0, 5, 255):
        push(8192, 4096, sys)

    note("push: no extended entry, a count over 24, and a 25th")
    for x, handed in ((NO_EXTENDED, 0), (NO_EXTENDED, MOST + 1), (NO_EXTENDED, MOST),
                      (disk_k(), MOST + 1), (disk_k(), MOST), (disk_k(), MOST - 1)):
        lend(x)
        for start, sectors, align in ((8192, 4096, 2048), (0, 4096, 2048), (8192, 4096, 0), (0, 0, 0), (2048, 4096, 2048),
                                      (16385, 4096, 2048), (16384, 4097, 2048)):
            push(start, sectors, align=align, handed=handed)
    lend(FULL)
    for geometry in (UNSET, (1023, 255, 63), (10, 2, 3)):
        push(8000, 200, align=100, geometry=geometry, word="push_all")
    lend(chained(records_of(chain(MOST - 1))))
    push(8000, 200, align=100, word="push_all")

    note("push: both sides of every comparison, empty and other chains")
    aligns = (0, 1, 2, 2048, 16384, 2 ** 31, BIG)
    for x in (one_extended(4096, 16384, disk_size=20480), disk_k()):
        lend(x)
        for align in aligns:
            for start in (0, 1, 4096, 4097, 16384, 16385, BIG):
                for sectors in (0, 2, 2049, 4096, 4097, BIG):
                    push(start, sectors, align=align)
    note("push: the largest numbers")
    for start, sectors, n in ((BIG - 100, 100, 0), (BIG - 100, 100, 1), (BIG - 100, 101, 0), (BIG - 100, 101, 1),
                              (BIG - 100, 102, 0), (1, BIG - 1, 0), (1, BIG - 1, 1), (1, BIG, 0), (2 ** 31, 2 ** 31 - 1, 0),
                              (2 ** 31, 2 ** 31, 1), (4096, 100, 0), (4096, 100, 1), (50, 1, 0), (4096, 0, 1)):
        lend(one_extended(start, sectors, n))
        for align in (1, 16, 2 ** 30):
            for at in (1, start - 1, start, start + sectors - 2 * align, start + sectors - 2 * align + 1, BIG):
                if not 0 <= at <= BIG:
                    continue
                for size in (2 * align, BIG - at, BIG - at + 1):
                    if 0 <= size <= BIG:
                        push(at, size, align=align)

    note("push: the end of a later one")
    for n in (0, 1, 2):
        lend(one_extended(4096, 16384, n, disk_size=30000))
        for start in (4096, 8192, 16384, 18432):
            for sectors in (4096, 20480 - start - 1, 20480 - start, 20480 - start + 1, BIG - start, BIG - start + 1, BIG - 2048):
                push(start, sectors)
                push(start, sectors, align=1)

    note("push: geometries")
    for n in (0, 1):
        lend(one_extended(4096, BIG - 4096, n))
        for geometry in (UNSET, (10, 0, 3), (10, 2, 0), (0, 2, 3), (10, 2, 3), (1023, 255, 63), (1024, 255, 63), (1023, 255, 64),
                         (1022, 255, 63), (1, 255, 63), (1023, 1, 63), (1023, 16, 63), (65535, 255, 63), (100, 1, 50)):
            for start, sectors in ((8192, 4096), (5000, 100), (16450000, 500), (16450460, 100), (16450460, 101),
                                   (16450559, 100), (16450560, 100), (16434495, 1000), (16434395, 100), (16434395, 101), (64000, 500)):
                push(start, sectors, align=1, geometry=geometry)
            push(16450000, 500, align=50, geometry=geometry, word="push_all")
        push(BIG - 200, 200, align=1, geometry=(1023, 255, 63))
        push(BIG - 200, 201, align=1, geometry=(1023, 255, 63))
        push(BIG - 200, 201, align=1)
        push(BIG - 200, 202, align=1)
    note("push: seeded")
    rng = c.Seeded(808)
    for _ in range(12):
        start, sectors = rng.of((63, 2048, 4096, rng.below(10 ** 6))), rng.of((16384, 10 ** 6, BIG - 10 ** 6))
        lend(one_extended(start, sectors, rng.below(4)))
        for _ in range(16):
            align = rng.of((1, 63, 2048, rng.between(1, 9999)))
            push(start + rng.below(sectors // 2), rng.of((1, 2, 3, 5)) * align + rng.below(3) - 1, align=align,
                 geometry=rng.of((UNSET, (1023, 255, 63), (500, 16, 63), (1023, 255, 0))))


def empty_cases():
    note("lookup, small changes and push: a first EBR without a partition, alone and before others")
    for n in (1, 2, 3, MOST - 1):
        lend(chained(records_of(empty_first(n))))
        on_table("len")
        for number in (4, 5, 6, 7, 4 + n, 5 + n):
            on_table("get", number)
            on_table("remove", number)
        for sector in (4999, 5000, 5001, 5109, 5110, 8999):
            on_table("find", sector)
            on_table("remove_at", sector)
        for at in range(min(n, 2)):
            on_table("update_chs", at, geometry=(1023, 255, 63))
        for start in (5000, 5001, 5100, 8000):
            for geometry in (UNSET, (1023, 255, 63)):
                push(start, 2, align=1, geometry=geometry, word="push_all")


if __name__ == "__main__":
    for section in (lookup_cases, from_cases, chs_cases, push_cases, empty_cases):
        section()
    print("\n".join(c.lines))
