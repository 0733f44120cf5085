"""Writes the cases of free runs and places: python3 free_cases.py > cases"""
from dataclasses import replace

import cases as c
import model as m
import table_cases as t
from cases import BIG, HIGHEST, MOST, note, part
from disk_k import disk_k
from read_cases import D, EXTENDED, chain, chained, empty_first, records_of, with_header
from table_cases import FULL, lend, on_table, one_extended


def entries_disk(disk_size, *entries, others=()):
    return with_header(c.header_of(*entries), disk_size, others)


def logicals_at(starts, extended=EXTENDED, disk_size=D, sectors=None, more=()):
    """A chain whose logical partitions start so many sectors after their EBRs."""
    ebrs = chain(len(starts))
    for k, start in enumerate(starts):
        size = ebrs[k].partition.sectors if sectors is None else sectors[k]
        ebrs[k] = replace(ebrs[k], partition=replace(ebrs[k].partition, starting_lba=start, sectors=size))
    return chained(records_of(ebrs), disk_size=disk_size, extended=extended, more=more)


PLACES = ("first_place", "last_place", "best_place")
TEN = entries_disk(10000, part(0x83, 2048, 2048))

# Tables whose free runs are sought.
TABLES = [
    TEN, disk_k(), entries_disk(1), entries_disk(2), entries_disk(2048), entries_disk(2049), entries_disk(BIG),
    # touching, overlapping, equal and turned
    entries_disk(10000, part(0x83, 2048, 2048), part(0x83, 4096, 2048)),
    entries_disk(10000, part(0x83, 2048, 2048), part(0x83, 4095, 2048)),
    entries_disk(10000, part(0x83, 2048, 2048), part(0x83, 3000, 100)),
    entries_disk(10000, part(0x83, 2048, 2048), part(0x83, 2048, 2048)),
    entries_disk(10000, part(0x83, 2048, 2048), part(0x83, 2048, 4096)),
    entries_disk(10000, part(0x83, 6000, 1000), part(0x83, 100, 1000), part(0x83, 3000, 1), part(0x83, 3001, 2)),
    entries_disk(10000, part(0x83, 6000, 1000), part(0, 100, 1000), part(0x83, 3000, 1000), part(0, 0, 0)),
    # starts 0 and 1, one sector, none, ends at, before and past D
    entries_disk(10000, part(0x83, 0, 100), part(0x83, 5000, 1)),
    entries_disk(10000, part(0x83, 1, 100), part(0x83, 5000, 1)),
    entries_disk(10000, part(0x83, 1, 1), part(0x83, 2, 1)),
    entries_disk(10000, part(0x83, 5000, 1)), entries_disk(10000, part(0x83, 5000, 0)), entries_disk(10000, part(0x83, 1, 0)),
    entries_disk(10000, part(0x83, 5000, 0), part(0x83, 6000, 0)),
    entries_disk(10000, part(0x83, 1, 9999)), entries_disk(10000, part(0x83, 1, 9998)), entries_disk(10000, part(0x83, 1, 10000)),
    entries_disk(10000, part(0x83, 2048, 7952)), entries_disk(10000, part(0x83, 2048, 7953)),
    entries_disk(10000, part(0x83, 2048, 7954)), entries_disk(10000, part(0x83, 9999, 1)), entries_disk(10000, part(0x83, 10000, 1)),
    entries_disk(10000, part(0x83, 20000, 100)), entries_disk(10000, part(0x83, 20000, 100), part(0x83, 5000, 100)),
    # the largest numbers
    entries_disk(BIG, part(0x83, BIG - 1, 1)), entries_disk(BIG, part(0x83, BIG, 1)), entries_disk(BIG, part(0x83, BIG - 1, 2)),
    entries_disk(BIG, part(0x83, 1, BIG)), entries_disk(BIG, part(0x83, 1, BIG - 1)), entries_disk(BIG, part(0x83, 2 ** 31, 2 ** 31 - 1)),
    entries_disk(BIG, part(0x83, 2 ** 31, 2 ** 31)), entries_disk(100, part(0x83, BIG - 9, 9), part(0x83, BIG - 9, 10)),
    entries_disk(BIG, part(0x83, BIG - 3000, 10)), entries_disk(100, part(0x83, BIG - 3000, 10)),
    # the extended area
    one_extended(4096, 16384, disk_size=20480), one_extended(4096, 16384, disk_size=30000), one_extended(4096, 0, disk_size=20480),
    one_extended(4096, 1, disk_size=20480), one_extended(4096, 2, disk_size=20480), one_extended(4096, 2048, disk_size=20480),
    one_extended(4096, 2049, disk_size=20480), one_extended(BIG - 100, 100), one_extended(BIG - 100, 101),
    one_extended(BIG - 100, 100, 1), one_extended(2 ** 31, 1000, 2), one_extended(2 ** 31 - 5, 1000, 1), one_extended(1, 100000, 3),
    one_extended(100, 100000, 3, step=50), one_extended(100, 100000, MOST, step=50), one_extended(100, 2000, MOST, step=50),
    FULL, chained(records_of(chain(3))), chained(records_of(chain(3)), more=(part(0x0F, 100, 500), part(0x83, 700, 100))),
    logicals_at((10,), replace(EXTENDED, sectors=5010)), logicals_at((0,)), logicals_at((1,)), logicals_at((0, 0, 0)),
    logicals_at((10, 10, 10), replace(EXTENDED, sectors=100000), BIG, (1, 1, 1)),
    logicals_at((10, 10, 10), replace(EXTENDED, sectors=100000), BIG, (0, 1, 1)),
    logicals_at((10, 10, 10), replace(EXTENDED, sectors=100000), BIG, (200, 200, 5000)),
    logicals_at((10, 9910, 10), replace(EXTENDED, sectors=100000), BIG, (5000, 20, 20)),
    logicals_at((10, 10), replace(EXTENDED, sectors=100000), BIG, (BIG, 1)),
    logicals_at((10, 10), replace(EXTENDED, sectors=100000), BIG, (BIG - 10010, 1)),
    logicals_at((10, 10), replace(EXTENDED, sectors=100000), BIG, (BIG - 10009, 1)),
    logicals_at((10, BIG - 10200), replace(EXTENDED, sectors=100000), BIG, (1, 1)),
    logicals_at((10, BIG - 10199), replace(EXTENDED, sectors=100000), BIG, (1, 1)),
    logicals_at((10, BIG - 10201), replace(EXTENDED, sectors=100000), BIG, (1, 1)),
    entries_disk(10000, part(0x05, 5000, 1000), part(0x83, 5000, 1000)),
]


def seeded_tables():
    rng = c.Seeded(909)
    for _ in range(40):
        disk_size = rng.of((10000, 100000, 1000000))
        entries = []
        at = 0
        for _ in range(rng.below(5)):
            start = at + rng.of((0, 1, 2, rng.below(disk_size // 4) + 1))
            sectors = rng.of((1, 2, rng.below(disk_size // 4) + 1))
            entries.append(part(0x83, start + (start == 0), sectors))
            at = rng.of((start + sectors, start + sectors, start + sectors, start + sectors // 2))
        if entries and rng.below(2):
            entries.insert(rng.below(len(entries)), entries.pop())
        yield entries_disk(disk_size, *entries)
    for _ in range(20):
        n = rng.between(1, 6)
        yield logicals_at([rng.of((1, 10, rng.below(3000))) for _ in range(n)],
                          replace(EXTENDED, sectors=rng.of((5000, 10000, 20000))), 30000,
                          [rng.of((1, 50, rng.below(500) + 1)) for _ in range(n)],
                          (part(0x83, rng.between(1, 4000), rng.between(1, 1000)),) * rng.below(2))


def free_cases():
    note("free runs")
    for x in TABLES:
        lend(x)
        for align in (2048, 1, 0, 63, 2 ** 31, BIG):
            on_table("free", align=align)
    for x in (TEN, disk_k(), entries_disk(1), entries_disk(10000, part(0x83, 1, 1))):
        lend(x)
        for disk_size in (0, 1, 2, 3, 2047, 2048, 2049, 4095, 4096, 4097, BIG):
            for align in (1, 2048):
                on_table("free", align=align, disk_size=disk_size)
    lend(FULL)
    for handed in (MOST, MOST + 1):
        for align in (0, 1):
            on_table("free", align=align, handed=handed)
    for x in seeded_tables():
        lend(x)
        for align in (1, 7, 2048):
            on_table("free", align=align)


def place_cases():
    note("places and sizes")
    lend(TEN)
    for word in PLACES:
        for size in (0, 1, 1000, 5903, 5904, 5905, BIG):
            on_table(word, size)
    for x in TABLES:
        lend(x)
        for align in (2048, 1):
            try:
                runs = m.free_runs(replace(t.table, align=align))
            except m.Refusal:
                runs = []
            sizes = {1, BIG} | {run.length + more for run in runs[:3] for more in (0, 1)}
            for size in sorted(sizes) if runs else (1,):
                for word in PLACES:
                    on_table(word, size, align=align)
            on_table("most", align=align)
            for number in (1, 2, 5, 6) if runs else (1, 9):
                on_table("most_for", number, align=align)
    lend(FULL)
    for number in (0, 4, HIGHEST - 1, HIGHEST, HIGHEST + 1, BIG):
        on_table("most_for", number, align=1)
    for handed in (MOST, MOST + 1):
        for align in (0, 1):
            on_table("most", align=align, handed=handed)
            on_table("most_for", 40, align=align, handed=handed)
            for word in PLACES:
                on_table(word, 1, align=align, handed=handed)
    for x in seeded_tables():
        lend(x)
        on_table("most", align=7)
        for number in (1, 2, 5):
            on_table("most_for", number, align=1)
        for size in (0, 100, 3000):
            for word in PLACES:
                on_table(word, size, align=7)


def lent_cases():
    note("thirty lent runs, and a lent partition")
    for x in TABLES[:12] + [FULL, one_extended(100, 100000, MOST, step=50)]:
        lend(x)
        for align in (2048, 1, 0):
            on_table("free_into", 7, 9, align=align)
    on_table("free_into", BIG, BIG, align=1)
    lend(FULL)
    for handed in (MOST, MOST + 1):
        on_table("free_into", 0, 1, align=1, handed=handed)
    lend(chained(records_of(chain(3))))
    for geometry in ((1023, 255, 63), (10, 2, 3), (1, 1, 1), (0, 0, 0), (65535, 255, 255), (866, 2, 3)):
        for at in (0, 1, 2):
            on_table("update_lent", at, geometry=geometry)


def empty_cases():
    note("free runs and places: a first EBR without a partition, alone and before others")
    for n in (1, 2, 3, MOST):
        lend(chained(records_of(empty_first(n)), extended=replace(EXTENDED, sectors=4900)))
        for align in (1, 7, 100, 2048):
            on_table("free", align=align)
            on_table("most", align=align)
            for number in (5, 6):
                on_table("most_for", number, align=align)
            for word in PLACES:
                on_table(word, 500, align=align)
        on_table("free_into", 7, 9, align=100)


if __name__ == "__main__":
    for section in (free_cases, place_cases, lent_cases, empty_cases):
        section()
    print("\n".join(c.lines))
