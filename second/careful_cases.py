"""Writes the cases of careful changes: python3 careful_cases.py > cases"""
from dataclasses import replace

import cases as c
import model as m
from cases import BIG, HIGHEST, MOST, case, note, part
from disk_k import disk_k
from model import CHS, EBR, Entry
from read_cases import chain, chained, changed, code, coded, damaged, disk, records_of, with_header

UNSET = (0, 0, 0)
FULL = (1023, 255, 63)
near = c.Near()


def push(start, sectors, sys=0x83, align=2048, geometry=UNSET, room=1040):
    """A careful push with so many lent bytes."""
    case("o", room, 238)
    case("careful_push", align, *geometry, sys, start, sectors)


def remove(number, room=1040):
    case("o", room, 238)
    case("careful_remove", number)


# ---------------------------------------------------------------- disks

EMPTY = chained({}, disk_size=20480, extended=part(0x05, 4096, 16384))
NO_EXTENDED = with_header(c.header_of(part(0x83, 2048, 2048)))
SPACE = Entry(0x80, CHS(7, 8, 9), 0x0F, CHS(10, 11, 12), 5000, 20000)


def links(n, sectors=100):
    """A chain that is sound: each link covers its partition and no more than its step."""
    ebrs = chain(n)
    return [changed(ebr, link={"sectors": sectors} if k + 1 < n else {}) for k, ebr in enumerate(ebrs)]


def sound_chain(n, kind=0x0F, size=512, disk_size=30000, ebrs=None):
    """Logical partitions at 5,000, 5,100 and so on, with code, and primaries before and behind."""
    records = records_of(links(n) if ebrs is None else ebrs)
    return chained(records, disk_size=disk_size, extended=replace(SPACE, sys=kind), size=size,
                   more=(part(0x83, 64, 4936, 0x80), part(0x07, 25000, 5000)))


def chain_with(n, k, partition=None, link=None):
    """That chain with the EBR of a number, counted from 0, changed."""
    ebrs = links(n)
    ebrs[k] = changed(ebrs[k], partition, link)
    return sound_chain(n, ebrs=ebrs)


NOTHING = {"sys": 0, "starting_lba": 0, "sectors": 0}


def first_with(n, partition=None, link=None, kind=0x0F, size=512):
    """That chain with the first entry empty, flagged and addressed, and further fields of the first EBR changed."""
    ebrs = links(n)
    ebrs[0] = changed(ebrs[0], {**NOTHING, "boot": 0x80, **(partition or {})}, link)
    return sound_chain(n, kind, size, ebrs=ebrs)


def small(disk_size, sectors, *ebrs):
    """A disk of so many sectors with an extended partition of so many from sector 1 on: the place of each EBR, its
    partition's type, relative start and sectors, and the place and sectors that its link gives, places on the disk."""
    records = {}
    for place, sys, start, length, link in ebrs:
        following = part(0x05, link[0] - 1, link[1]) if link else m.NO_ENTRY
        records[place] = m.ebr_bytes(EBR(bytes(446), part(sys, start, length), following))
    return chained(records, disk_size=disk_size, extended=part(0x05, 1, sectors))


def primaries(*entries, disk_size=30000):
    """A chain of two and these entries beside the extended one."""
    return chained(records_of(links(2)), disk_size=disk_size, extended=SPACE, more=entries)


WIDE = replace(SPACE, starting_lba=4096, sectors=32768)


def zones(*places, extended=WIDE, size=512):
    """A disk with zones: of each the place of its EBR, its start and its sectors; without sectors the EBR is an empty first one.
    Codes, flags, addresses and links tell one from the other."""
    records = {}
    for k, (place, start, sectors) in enumerate(places):
        link = m.NO_ENTRY
        if k + 1 < len(places):
            there, first, length = places[k + 1]
            link = Entry(0x80, CHS(k + 1, k, 1), 0x85, CHS(k + 1, k, 63), there - extended.starting_lba,
                         first + length - there + k % 3)
        partition = Entry(0x80 * (k % 2), CHS(k, 1, 1), 0x83 if sectors else 0, CHS(k, 2, 2), start - place, sectors)
        records[place] = m.ebr_bytes(EBR(code(k + 1), partition, link))
    return chained(records, disk_size=extended.end + 4096, extended=extended, size=size, more=(part(0x83, 1, 60, 0x80),))


def without(x, *numbers):
    """The disk after careful removals of these numbers; the EBR of a zone that was not the first is still a record."""
    for number in numbers:
        disk = m.extract_disk(x)
        for lba, record in m.careful_removal(x, number, bytearray(m.STORES)).stores:
            disk.records[lba] = record
        x = m.extract_bytes(disk)
    return x


# Each breaks one rule of a sound table, in document 01's order; what breaks signature or flags is not read at all.
UNSOUND = (
    primaries(part(0x83, 0, 9)), primaries(part(0x83, 9, 0)), primaries(part(0x83, 25000, 5001)),
    primaries(part(0x83, 25000, BIG)), primaries(part(0x83, 4990, 11)), primaries(part(0x83, 24999, 5)),
    primaries(part(0x83, 10, 10), part(0x07, 19, 10)), primaries(part(0x85, 10, 10)),
    chained(records_of(links(2)), disk_size=24999, extended=SPACE),
    chain_with(3, 1, {"sys": 0}), chain_with(3, 1, {"sys": 0x05}), chain_with(3, 2, {"sys": 0xD5}),
    chain_with(3, 1, {"sectors": 0}), chain_with(3, 0, {"sectors": 0}), chain_with(3, 1, {"starting_lba": 0}),
    chain_with(3, 0, {"starting_lba": 0}), chain_with(3, 0, {"sectors": 91}), chain_with(3, 1, {"sectors": 91}),
    chain_with(3, 2, {"sectors": BIG}), chain_with(3, 0, {}, {"sectors": 0}), chain_with(3, 1, {}, {"sectors": 0}),
    chain_with(3, 1, {}, {"sectors": 19801}), chain_with(3, 0, {}, {"sectors": 88}), chain_with(3, 1, {}, {"sectors": 87}),
)
# Each has a first or a later entry of type 0 that is not sound, or an empty first one and one rule broken beside it.
UNSOUND_EMPTY = (
    chain_with(1, 0, {"sys": 0}), chain_with(3, 0, {"sys": 0}), first_with(1, {"starting_lba": 1}), first_with(3, {"starting_lba": 1}),
    first_with(1, {"starting_lba": BIG - 5000}), first_with(1, {"sectors": 1}), first_with(3, {"sectors": 1}),
    first_with(1, {"sectors": BIG}), first_with(3, {"starting_lba": 10, "sectors": 80}), first_with(1, {"sys": 0x83}),
    first_with(3, {"sys": 0x83}), first_with(1, {"sys": 0x05}), first_with(3, {"sys": 0x0F}), first_with(3, {"sys": 0x83, "sectors": 1}),
    first_with(3, {"sys": 0x83, "starting_lba": 1}),
    chain_with(2, 1, NOTHING), chain_with(3, 1, NOTHING), chain_with(3, 2, NOTHING), chain_with(2, 1, {"sys": 0}),
    chain_with(2, 1, {"sys": 0, "starting_lba": 0}), chain_with(2, 1, {"sys": 0, "sectors": 0}),
    first_with(2, {}, {"sectors": 0}), first_with(2, {}, {"sectors": 88}), first_with(2, {}, {"sectors": 19901}),
    sound_chain(2, ebrs=[changed(ebr, NOTHING) for ebr in links(2)]),
    sound_chain(3, ebrs=[links(3)[0]] + [changed(ebr, NOTHING) for ebr in links(3)[1:]]),
    chained(records_of([changed(links(1)[0], NOTHING)]), disk_size=24999, extended=SPACE),
    chained(records_of([changed(links(1)[0], NOTHING)]), disk_size=30000, extended=replace(SPACE, sectors=0)),
    chained(records_of([changed(links(1)[0], NOTHING)]), disk_size=30000, extended=SPACE, more=(part(0x83, 5000, 1),)),
    # X 0: the MBR is the first EBR, and its first entry is empty.
    with_header(c.header_of(m.NO_ENTRY, part(0x05, 0, 9), part(0x83, 64, 9))),
    small(4, 3, (1, 0, 0, 0, (2, 2)), (2, 0, 0, 0, None)), small(4, 3, (1, 0, 0, 0, (3, 1)), (3, 0x83, 1, 1, None)),
)
# Each has an empty first entry, and is sound.
EMPTY_FIRST = (
    first_with(1), first_with(2), first_with(3), first_with(MOST), first_with(2, {"boot": 0}),
    first_with(2, {"first_chs": m.NO_CHS, "last_chs": m.NO_CHS}),
    first_with(2, {"first_chs": CHS(1023, 255, 63), "last_chs": CHS(1023, 255, 63)}), first_with(1, {}, {"boot": 0x80, "sys": 0x83}),
    first_with(1, {}, {"first_chs": CHS(1, 2, 3), "last_chs": CHS(4, 5, 6), "sectors": BIG}), first_with(2, {}, {"sectors": 89}),
    first_with(2, {}, {"sectors": 19900}), first_with(2, {}, {"sys": 0, "boot": 0x80}),
    small(2, 1, (1, 0, 0, 0, None)), small(3, 2, (1, 0, 0, 0, None)), small(5, 4, (1, 0, 0, 0, None)),
    small(4, 3, (1, 0, 0, 0, (2, 2)), (2, 0x83, 1, 1, None)), small(9, 8, (1, 0, 0, 0, (2, 2)), (2, 0x83, 1, 1, (4, 2)), (4, 0x82, 1, 1, None)),
)
# Each is at the limit of a rule, and sound.
AT_LIMITS = (
    primaries(part(0x83, 1, 1)), primaries(part(0x83, 25000, 5000)), primaries(part(0x83, 4990, 10)),
    primaries(part(0x83, 10, 10), part(0x07, 20, 10)), primaries(part(0, 0, BIG)),
    chained(records_of(links(2)), disk_size=25000, extended=SPACE),
    chain_with(3, 1, {"sectors": 1}), chain_with(3, 1, {"starting_lba": 1}), chain_with(3, 0, {"sectors": 90}),
    chain_with(3, 2, {"sectors": 90}), chain_with(3, 1, {}, {"sectors": 19800}), chain_with(3, 0, {}, {"sectors": 89}),
    chain_with(3, 0, {"first_chs": CHS(1023, 255, 63), "last_chs": CHS(1023, 255, 63)}),
)
UNREAD = (
    disk_k()[:1055], disk(0, {}), disk(9, {}), damaged(disk_k(), 24 + 8 + 446, "01"),
    chain_with(3, 1, {}, {"starting_lba": 100}), chained(records_of(chain(MOST + 1))), chain_with(3, 1, {"starting_lba": BIG}),
    chain_with(3, 1, {}, {"starting_lba": BIG}), chain_with(3, 1, {"boot": 1}),
)

# ---------------------------------------------------------------- careful push


def number_cases():
    note("careful push: K's numbers")
    near.lend(disk_k())
    for start, sectors in ((8192, 4096), (8191, 4096), (16384, 4096), (16384, 4097), (16385, 4096), (2048, 4096),
                           (6144, 4096), (0, 4096), (8192, 2049), (8192, 2048), (8192, 0), (8193, 4096), (6145, 4096),
                           (4096, 4096), (16383, 4096), (16384, 2049), (10240, 10240), (10240, 10241), (8192, 12288)):
        push(start, sectors)
    note("careful push: a first one whose end is exactly 2 to the 32nd")
    near.lend(chained({}, disk_size=20480, extended=part(0x05, 2048, 16384)))
    for geometry in (FULL, UNSET, (1023, 255, 64), (1024, 255, 63), (1023, 255, 0)):
        for sectors in (4294965248, 4294963200, 4294963201, 4294965249, BIG, 16384, 16385, 4096):
            push(2048, sectors, geometry=geometry)
    note("careful push: the lent output")
    for x in (EMPTY, disk_k()):
        near.lend(x)
        for room in (0, m.STORE - 1, m.STORE, m.STORE + 1, m.STORES - 1, m.STORES, m.STORES + 1, 2000):
            push(8192, 4096, room=room)
    note("careful push: the type")
    near.lend(disk_k())
    for sys in (0, 1, 0x04, 0x05, 0x06, 0x0E, 0x0F, 0x1F, 0x82, 0x83, 0x85, 0xC5, 0xD5, 0xEE, 0xFF):
        push(8192, 4096, sys)


def place_cases():
    note("careful push: chains of several lengths, both sides of every place")
    for n in (0, 1, 2, 3, MOST - 1, MOST):
        near.lend(sound_chain(n) if n else chained({}, disk_size=30000, extended=SPACE))
        end = 5000 + 100 * n
        for start, sectors in ((end, 100), (end - 1, 100), (end - 11 - n, 100), (end - 10 - n, 100), (24900, 100),
                               (24901, 100), (24998, 2), (24999, 2), (5000, 20000), (end, 25000 - end), (end, 25001 - end),
                               (4999, 100), (end, 1), (end, 2)):
            push(start, sectors, align=1)
        push(end, 200, align=100, geometry=FULL)
        push(end + 50, 250, align=50, geometry=(500, 16, 63))
    note("careful push: every type of extended entry, every sector size")
    for kind in m.EXTENDED_TYPES:
        for size in m.SECTOR_SIZES:
            near.lend(sound_chain(2, kind, size))
            push(6000, 300, align=100)
    note("careful push: the highest places")
    high = chained({BIG - 100: m.ebr_bytes(EBR(b"\x07" + bytes(445), part(0x83, 5, 5), m.NO_ENTRY))}, disk_size=BIG,
                   extended=part(0x05, BIG - 100, 100))
    none = chained({}, disk_size=BIG, extended=part(0x05, BIG - 100, 100))
    for x in (high, none):
        near.lend(x)
        for start, sectors in ((BIG - 90, 90), (BIG - 90, 91), (BIG - 90, 92), (BIG - 91, 50), (BIG - 2, 2), (BIG - 1, 2),
                               (BIG, 2), (BIG - 90, BIG)):
            for align in (1, 2, 3):
                push(start, sectors, align=align)
    note("careful push: geometries")
    for n in (0, 2):
        near.lend(sound_chain(n) if n else chained({}, disk_size=30000, extended=SPACE))
        for geometry in ((0, 255, 63), (1, 255, 63), (2, 255, 63), (1023, 1, 63), (1023, 1, 6), (1023, 1, 7), (1023, 0, 63),
                         (10, 16, 63), (19, 16, 63), (20, 16, 63), (1023, 255, 64), (1023, 0, 64), (0, 255, 255), (1024, 1, 255)):
            for start, sectors in ((6000, 100), (20000, 200), (24000, 2000)):
                push(start, sectors, align=1, geometry=geometry)


def refusal_cases():
    note("careful push: refusals, alone and together")
    shifted = damaged(disk_k(), 24 + 8 + 512 + 458, "01500000")
    for x in (disk_k(), EMPTY, NO_EXTENDED, sound_chain(MOST), shifted, disk_k()[:1055]):
        near.lend(x)
        for sys, geometry in ((0x83, UNSET), (0, UNSET), (0x83, (1, 1, 64)), (0x83, (1, 1, 1))):
            for start, sectors, align in ((8192, 4096, 2048), (0, 4096, 2048), (8192, 4096, 0), (8192, 2048, 2048),
                                          (2048, 2048, 2048), (2048, 4096, 2048), (16385, 4096, 2048), (16384, 4097, 2048),
                                          (6144, 4096, 2048), (6144, BIG, 2048), (8192, 2 ** 31, 2 ** 31)):
                push(start, sectors, sys, align, geometry)
        push(8192, 4096, room=1031)
        push(6144, 4096, room=1031)
        push(8192, 4096, 0, room=0)
        push(8192, 40960, room=1031)
        push(8000, 200, align=100, geometry=(1, 16, 63))
        remove(5, room=1031)
        remove(4, room=1031)
        remove(6, room=1031)
    note("careful changes: what is not read")
    for x in UNREAD:
        near.lend(x)
        push(6000, 200, align=1)
        push(0, 0, 0, 0, (1, 1, 64), 0)
        remove(5)
        remove(0, 0)
    note("careful changes: what is not sound")
    for x in UNSOUND:
        near.lend(x)
        push(6000, 200, align=1)
        push(0, 0, 0, 0, (1, 1, 64), 0)
        remove(5)
        remove(0, 0)
    note("careful changes: entries of type 0 that are not sound")
    for x in UNSOUND_EMPTY:
        near.lend(x)
        push(6000, 200, align=1)
        push(0, 0, 0, 0, (1, 1, 64), 0)
        remove(5)
        remove(0, 0)
    note("careful changes: what is just sound")
    for x in AT_LIMITS:
        near.lend(x)
        push(6000, 200, align=1)
        remove(5)
        remove(6)
        remove(7)


# ---------------------------------------------------------------- careful removal


def removal_cases():
    note("careful removal: K")
    near.lend(disk_k())
    for number in (0, 1, 4, 5, 6, HIGHEST, HIGHEST + 1, 255, 256, 261, BIG, BIG + 6):
        remove(number)
    for room in (0, m.STORE - 1, m.STORE, m.STORES - 1, m.STORES, m.STORES + 1):
        remove(5, room)
    note("careful removal: first, middle, last, absent")
    for n in (1, 2, 3, 5, MOST - 1, MOST):
        near.lend(sound_chain(n))
        for number in sorted({4, 5, 6, 7, 4 + n // 2, 3 + n, 4 + n, 5 + n}):
            remove(number)
        remove(4 + n, 1031)
    near.lend(EMPTY)
    remove(5)
    near.lend(NO_EXTENDED)
    remove(5)
    note("careful removal: every type of extended entry, every sector size")
    for kind in m.EXTENDED_TYPES:
        for size in m.SECTOR_SIZES:
            near.lend(sound_chain(3, kind, size))
            for number in (5, 6, 7):
                remove(number)
    note("careful removal: links and marks of any kind")
    for fields in ({"sys": 0}, {"sys": 0x83}, {"boot": 0x80}, {"first_chs": m.NO_CHS}, {"last_chs": CHS(1023, 255, 63)},
                   {"sectors": 200}):
        for k in (0, 1):
            near.lend(chain_with(4, k, {"boot": 0x80}, fields))
            for number in (5, 6, 7, 8):
                remove(number)
    ebrs = [coded(ebr, 50 + k) for k, ebr in enumerate(links(3))]
    records = {lba: damaged(record, 478, "ff" * 32) for lba, record in records_of(ebrs).items()}
    near.lend(chained(records, disk_size=30000, extended=SPACE))
    for number in (5, 6, 7):
        remove(number)
    push(6000, 200, align=1)


# ---------------------------------------------------------------- an empty first entry


def empty_first_cases():
    note("careful changes: an empty first entry, alone, before one and before others")
    for x in EMPTY_FIRST:
        near.lend(x)
        t = m.read_table(x)
        place = t.header.extended().starting_lba
        ends = sorted({place, m.end_of(t.logicals, len(t.logicals) - 1)} | {l.absolute_ebr_lba for l in t.logicals[1:3]})
        for start in sorted({at + more for at in ends for more in (-1, 0, 1)} - {0}):
            push(start, 2, align=1)
        push(6000, 200, align=1)
        push(24000, 1000, 0x07, 100, FULL)
        for number in sorted({4, 5, 6, 7, 4 + len(t.logicals), 5 + len(t.logicals)}):
            remove(number)
    note("careful changes: an empty first entry alone, both sides of its end and of every other limit")
    for sectors in (1, 2, 3, 4, 5):
        near.lend(small(sectors + 1, sectors, (1, 0, 0, 0, None)))
        for start in range(sectors + 3):
            for length in (1, 2, 3, 4):
                push(start, length, align=1)
        push(1, 4, align=2)
        push(2, 4, align=2)
        remove(5)
    near.lend(small(6, 5, (1, 0, 0, 0, (2, 2)), (2, 0x83, 1, 1, None)))
    for start in range(7):
        push(start, 2, align=1)
    note("careful changes: an empty first entry in an extended partition at the highest places")
    for sectors in (1, 2, 3, 4):
        place = BIG - sectors
        near.lend(chained({place: m.ebr_bytes(EBR(b"\x07" + bytes(445), replace(m.NO_ENTRY, boot=0x80), m.NO_ENTRY))},
                          disk_size=BIG, extended=part(0x05, place, sectors)))
        for start in range(place - 1, BIG + 1):
            for align in (1, 2):
                push(start, 2 * align, align=align)
        remove(5)
    note("careful changes: an empty first entry, alignments, geometries and the lent output")
    for n in (1, 2):
        near.lend(first_with(n))
        for align in (2, 63, 100, 2048, 5000, 5001):
            for start in (5000, 5001, 4999, 5101, 10000):
                push(start, 2 * align, align=align)
        for geometry in (FULL, (500, 16, 63), (1, 16, 63), (6, 16, 63), (1023, 1, 4), (1023, 255, 64), (1023, 0, 63)):
            push(5000, 300, align=100, geometry=geometry)
            push(5200, 300, align=100, geometry=geometry)
        for room in (0, m.STORE, m.STORES - 1, m.STORES, m.STORES + 1):
            push(6000, 200, align=100, room=room)
            push(5000, 200, align=100, room=room)
            remove(5, room)
            remove(6, room)
        push(5000, 20001, align=1)
        push(5000, 20001, 0, align=1)
        push(5000, 2, 0x05, align=1)
        push(5000, 1, align=1)
    near.lend(first_with(MOST - 1))
    push(8000, 200, align=100)
    push(5000, 200, align=100)
    near.lend(first_with(MOST))
    push(8000, 200, align=100)
    push(5000, 200, align=100)
    note("careful changes: an empty first entry, every type of extended entry, every sector size")
    for n in (1, 3):
        for kind in m.EXTENDED_TYPES:
            for size in m.SECTOR_SIZES:
                near.lend(first_with(n, kind=kind, size=size))
                push(6000, 300, align=100)
                for number in (5, 6):
                    remove(number)
    note("careful changes: a first EBR with another flag, without 55 AA, or of zeros is none")
    for n in (1, 2):
        x = first_with(n)
        at = len(x) - 512 * n
        for change in ((446, "01"), (462, "01"), (510, "55ab"), (510, "0000")):
            near.lend(damaged(x, at + change[0], change[1]))
            for start in (5000, 5001, 6000):
                push(start, 2, align=1)
            remove(5)
        near.lend(damaged(x, at, "00" * 512))
        push(5000, 2, align=1)
        remove(5)
    note("careful changes: an empty first entry, code and further bytes")
    ebrs = [coded(ebr, 70 + k) for k, ebr in enumerate(links(3))]
    ebrs[0] = changed(ebrs[0], NOTHING)
    records = {lba: damaged(record, 478, "ff" * 32) for lba, record in records_of(ebrs).items()}
    near.lend(chained(records, disk_size=30000, extended=SPACE))
    push(6000, 200, align=1)
    for number in (5, 6, 7):
        remove(number)
    near.lend(chained({5000: records[5000][:462] + bytes(16) + records[5000][478:]}, disk_size=30000, extended=SPACE))
    push(6000, 200, align=1)
    remove(5)


# ---------------------------------------------------------------- gaps

FIRST, MIDDLE, LAST = (4096, 6144, 2048), (8192, 10240, 6144), (16384, 18432, 2048)
BEHIND = (26624, 28672, 2048)
# EBRs, starts and ends at uneven places, with room between an EBR and its partition and between two zones.
UNEVEN = ((4096, 4100, 7), (4120, 4121, 1), (4124, 4130, 10), (4140, 4145, 5))
VACANT = (4096, 4096, 0)


def row(n):
    """So many zones with room behind each."""
    return [(4096 + 1000 * k, 4101 + 1000 * k, 500) for k in range(n)]


def around(x):
    """Pushes at alignment 1 of two sectors on both sides of every EBR, start and end, and of about all that is left between an end
    and the next EBR or the extended partition's end."""
    t = m.read_table(x)
    limits = [l.absolute_ebr_lba for l in t.logicals[1:]] + [t.header.extended().end]
    ends = [m.end_of(t.logicals, at) for at in range(len(t.logicals))]
    places = {*ends, *(place for l in t.logicals for place in (l.absolute_ebr_lba, l.partition.starting_lba))}
    for start in sorted({place + more for place in places for more in (-1, 0, 1)}):
        push(start, 2, align=1)
    for end, limit in zip(ends, limits):
        for start, sectors in ((end, limit - end), (end, limit - end + 1), (limit - 2, 2), (limit - 2, 3)):
            push(start, max(sectors, 2), align=1)


def removed_zone_cases():
    note("careful push: three zones, the middle one removed")
    near.lend(zones(FIRST, LAST))
    for start in (8192, 8191, 6145, 6144, 8193, 10240, 12288, 14336, 16384, 18432, 20480, 4096, 2048):
        push(start, 4096)
    for start, sectors in ((8192, 8192), (8192, 8191), (8192, 8193), (10240, 6144), (10240, 6145), (12288, 4097), (14336, 2048),
                           (4096, 8192), (2048, 16384), (8192, 28672), (8192, 28673), (4096, 32768), (4096, 32769), (32769, 4096),
                           (0, 4096), (8192, 0)):
        push(start, sectors)
    for start in (4095, 4096, 4097, 5000, 6143, 6144, 7000, 8191, 8192, 16382, 16383, 16384, 16385, 18431, 18432, 19000, 20479, 20480):
        push(start, 2, align=1)
    for start, sectors in ((8192, 8192), (8192, 8193), (8191, 8193), (8192, 1), (16382, 3), (4095, 32769), (12000, 500),
                           (12000, 4384), (12000, 4385), (7000, 10000)):
        push(start, sectors, align=1)
    for align in (2, 63, 1000, 4096, 8191, 8192):
        for start in (8191, 8192, 8193):
            push(start, 2 * align, align=align)
    near.lend(without(zones(FIRST, MIDDLE, LAST), 6))
    for start, sectors in ((8192, 8192), (8192, 8193), (8191, 4096), (6144, 4096), (10240, 6144), (12288, 4096), (14336, 4096)):
        push(start, sectors)
    note("careful push: of three zones the first, the last, and two of them removed")
    for numbers in ((5,), (7,), (5, 5), (6, 5), (6, 6), (7, 6)):
        near.lend(without(zones(FIRST, MIDDLE, LAST), *numbers))
        for start in (4096, 6144, 8192, 12288, 16384, 18432):
            push(start, 4096)
        push(8192, 8192)
        push(8192, 8193)


def gap_cases():
    note("careful push: both sides of every EBR, start and end")
    for x in (zones(*UNEVEN), zones(VACANT, *UNEVEN[1:])):
        near.lend(x)
        around(x)
    note("careful push: two gaps, of which the second fits")
    near.lend(zones(FIRST, (12288, 14336, 2048), (22528, 24576, 2048)))
    for start in (8192, 16384, 26624):
        for sectors in (4096, 4097, 6144, 6145):
            push(start, sectors)
    note("careful push: a gap of exactly double the alignment, and one sector less")
    for align in (1, 2, 63, 1024, 2048):
        for less in (0, 1):
            place = 8192 // align * align
            near.lend(zones((4096, 4097, place - 4097), (place + 2 * align - less, place + 2 * align + 5, 7)))
            for start in (place - 1, place, place + 1):
                push(start, 2 * align, align=align)
            push(place, 2 * align + 1, align=align)
    note("careful push: a gap that rounding the start leaves too small")
    near.lend(zones((4096, 4097, 4000), (12200, 12300, 50)))
    for align in (2, 63, 100, 1000, 2000, 2048, 4096):
        for start in (8096, 8097, 8098, 10000):
            push(start, 2 * align, align=align)
    note("careful push: between an empty first EBR and the second")
    for second in (LAST, (4099, 4100, 5), (4098, 4100, 5), (4097, 4100, 5)):
        near.lend(zones(VACANT, second))
        for start in (4095, 4096, 4097, 4098, 16382, 16383, 16384):
            push(start, 2, align=1)
        for sectors in (3, 12287, 12288):
            push(4097, sectors, align=1)
        for start, sectors in ((4096, 4096), (4097, 4096), (6144, 10240), (6144, 10241), (12288, 4096), (14336, 4096)):
            push(start, sectors)
        push(6144, 10240, geometry=FULL)
    note("careful push: many zones with holes")
    for n in (MOST - 1, MOST):
        near.lend(zones(*row(n)))
        for k in (0, 1, n // 2, n - 2, n - 1):
            for start, sectors in ((4601, 495), (4601, 496), (4600, 2), (4700, 300), (5095, 2), (5096, 2)):
                push(1000 * k + start, sectors, align=1)
        push(4601, 40000, align=1)
        push(4601, 495, align=1, room=1031)
    near.lend(without(zones(*row(MOST)), *range(6, 4 + MOST // 2)))
    for k in (1, 2, MOST - 3, MOST - 1):
        for sectors in (600, 1000, 1001):
            push(4096 + 1000 * k, sectors, align=1)


def gap_refusal_cases():
    note("careful push: into a gap, refusals together and their order")
    near.lend(zones(FIRST, LAST))
    for geometry in (UNSET, FULL, (1, 16, 63), (12, 16, 63), (20, 16, 63), (1023, 1, 8), (1023, 255, 64), (1024, 255, 63)):
        for start, sectors in ((8192, 4096), (8192, 8193), (6144, 4096), (16384, 4096)):
            push(start, sectors, geometry=geometry)
        push(8192, 4096, geometry=geometry, room=1031)
        push(6144, 4096, geometry=geometry, room=1031)
    for sys in (0, 0x05, 0x85, 0x07):
        push(6144, 4096, sys)
        push(8192, 4096, sys)
    for room in (0, m.STORE, m.STORES - 1, m.STORES, m.STORES + 1):
        push(8192, 4096, room=room)
        push(8192, 8193, room=room)
    near.lend(zones(*row(MOST)))
    for geometry in (UNSET, (1, 16, 63)):
        for start, sectors in ((4601, 495), (4601, 496), (4096, 2), (4095, 2), (36863, 2), (4601, 40000)):
            push(start, sectors, align=1, geometry=geometry)


def gap_field_cases():
    note("careful push: into a gap, every type of extended entry, every sector size")
    for kind in m.EXTENDED_TYPES:
        for size in m.SECTOR_SIZES:
            near.lend(zones(FIRST, LAST, BEHIND, extended=replace(WIDE, sys=kind), size=size))
            push(8192, 8192, 0x07)
            push(20480, 6144, 0x07, geometry=(500, 16, 63))
    note("careful push: into a gap, further bytes and any link behind it")
    x = m.extract_disk(zones(FIRST, LAST, BEHIND))
    for lba in (4096, 16384, 26624):
        x.records[lba] = damaged(x.records[lba], 478, "ff" * 32)
    near.lend(m.extract_bytes(x))
    for start in (8192, 20480, 30720):
        push(start, 4096)
    for at, text in ((462, "00"), (466, "00"), (466, "0f"), (463, "ffffff"), (467, "ffffff"), (463, "000000"), (474, "00500000"),
                     (474, "01100000")):
        near.lend(m.extract_bytes(replace(x, records={**x.records, 4096: damaged(x.records[4096], at, text)})))
        push(8192, 4096)
        push(20480, 4096)
        push(6144, 4096)
    note("careful push: into a gap at the highest places")
    high = BIG - 100
    first = EBR(code(1), part(0x83, 5, 5), part(0x05, 90, 10))
    last = EBR(code(2), part(0x83, 1, 9), m.NO_ENTRY)
    near.lend(chained({high: m.ebr_bytes(first), high + 90: m.ebr_bytes(last)}, disk_size=BIG, extended=part(0x05, high, 100)))
    for more in (0, 9, 10, 11, 88, 89, 98, 99):
        for sectors in (2, 80, 81, 91, BIG):
            push(high + more, sectors, align=1)
        push(high + more, 4, align=2)
        push(high + more, 30, align=15)


def seeded_cases():
    note("careful changes: seeded")
    rng = c.Seeded(909)
    for _ in range(24):
        n = rng.below(7)
        start, at, records = rng.of((63, 2048, rng.below(10 ** 6) + 1)), 0, {}
        places = []
        for _ in range(n):
            first = at + rng.between(1, 40)
            length = rng.between(1, 60)
            places.append((at, first, length))
            at = first + length + rng.of((0, 0, 1, rng.below(50)))
        for k, (place, first, length) in enumerate(places):
            link = replace(c.seeded_entry(rng), starting_lba=0)
            if k + 1 < n:
                following = places[k + 1]
                link = replace(link, starting_lba=following[0], sectors=following[1] + following[2] - following[0])
            partition = replace(c.seeded_entry(rng), sys=rng.of((0x83, 0x07, 0x82)), starting_lba=first - place, sectors=length)
            records[start + place] = m.ebr_bytes(EBR(rng.bytes(4) + bytes(438) + rng.bytes(4), partition, link, rng.bytes(32)))
        sectors = at + rng.of((1, 40, 4000, 10 ** 6))
        extended = replace(c.seeded_entry(rng), sys=rng.of(m.EXTENDED_TYPES), starting_lba=start, sectors=sectors)
        near.lend(chained(records, disk_size=start + sectors + rng.below(3), extended=extended, size=512 << rng.below(4)))
        for _ in range(6):
            align = rng.of((1, 1, 2, 7, 63))
            push(start + at + rng.below(40), rng.between(1, 5) * align + rng.below(20), align=align,
                 geometry=rng.of((UNSET, FULL, (500, 16, 63))))
        for number in (5, 5 + n // 2, 4 + n):
            remove(number)


def seeded_gap_cases():
    note("careful changes: seeded, with gaps")
    rng = c.Seeded(910)
    for _ in range(16):
        start, at, places = rng.of((63, 2048, rng.below(10 ** 6) + 1)), 0, []
        for k in range(rng.between(2, 9)):
            first = at if k == 0 and rng.below(3) == 0 else at + rng.between(1, 20)
            length = rng.between(1, 60) if first > at else 0
            places.append((start + at, start + first, length))
            at = max(first + length, at + 1) + rng.of((0, 2, rng.below(300), rng.below(300)))
        extended = replace(c.seeded_entry(rng), sys=rng.of(m.EXTENDED_TYPES), starting_lba=start, sectors=at + rng.below(200))
        x = zones(*places, extended=extended, size=512 << rng.below(4))
        near.lend(x)
        t = m.read_table(x)
        for _ in range(8):
            align = rng.of((1, 1, 1, 2, 7, 63))
            behind = rng.below(len(places))
            low = m.end_of(t.logicals, behind)
            high = places[behind + 1][0] if behind + 1 < len(places) else extended.end
            room = max(high - low, 1)
            sectors = rng.of((2 * align, 3 * align, room, room // align * align or 1, rng.between(1, 200)))
            push(low + rng.of((0, 0, 1, rng.below(room))), sectors, align=align, geometry=rng.of((UNSET, FULL, (500, 16, 63))))
        remove(5 + rng.below(len(places)))


if __name__ == "__main__":
    for section in (number_cases, place_cases, refusal_cases, removal_cases, empty_first_cases, removed_zone_cases, gap_cases,
                    gap_refusal_cases, gap_field_cases, seeded_cases, seeded_gap_cases):
        section()
    print("\n".join(c.lines))
