"""Holds model.py to the numbers of document 01, to disks of requests 2 and 3, and to what the documents say of any disk."""
import random
from dataclasses import replace

import model as m
from disk_k import disk_k
from model import CHS, Entry, Geometry, Refusal, Run

count = 0


def same(got, want):
    global count
    count += 1
    if got != want:
        raise AssertionError(f"check {count}: got {repr(got)[:300]}, want {repr(want)[:300]}")


def refused(number, f, *args):
    try:
        got = f(*args)
    except Refusal as r:
        same(r.number, number)
    else:
        same(("no refusal", got), number)


def answer(f, *args):
    """The answer, or the refusal's number, to be compared as one value."""
    try:
        return ("done", f(*args))
    except Refusal as r:
        return ("refused", r.number)


def header(*entries, code=bytes(440)):
    entries = tuple(entries) + (m.NO_ENTRY,) * (4 - len(entries))
    return m.Header(code, bytes(4), bytes(2), entries, m.SIGNATURE)


def part(sys, start, sectors, boot=0):
    return Entry(boot, m.NO_CHS, sys, m.NO_CHS, start, sectors)


def extract(disk_size, records, sector_size=512):
    return m.extract_bytes(m.Disk(sector_size, disk_size, dict(records)))


def table(disk_size, align, *entries, logicals=()):
    return m.Table(512, header(*entries), tuple(logicals), align, 0, 0, 0, disk_size)


def after_stores(x, stores):
    disk = m.extract_disk(x)
    for lba, record in stores:
        disk.records[lba] = record
    return disk


def chs_numbers():
    for chs, text in ((CHS(0, 32, 33), "202100"), (CHS(514, 3, 5), "038502"), (CHS(1023, 254, 63), "feffff")):
        same(m.chs_bytes(chs).hex(), text)
        same(m.chs_of_bytes(bytes.fromhex(text)), chs)
    same(m.chs_bytes(CHS(65535, 255, 255)).hex(), "ffffff")
    same(m.chs_bytes(CHS(1024, 1, 64)).hex(), "010000")
    big = (1023, 255, 63)
    same(m.from_lba_exact(2048, *big), CHS(0, 32, 33))
    same(m.from_lba_exact(16450559, *big), CHS(1023, 254, 63))
    same(m.chs_is_valid(CHS(1023, 254, 63), *big), False)
    refused(13, m.from_lba_exact, 16450560, *big)
    same(m.from_lba_exact(60, 10, 2, 3), CHS(10, 0, 1))
    refused(14, m.from_lba_exact, 66, 10, 2, 3)
    same(m.from_lba_aligned(6, 10, 2, 3).cylinder, 1)
    same(m.from_lba_aligned(7, 10, 2, 3).cylinder, 2)
    refused(7, m.from_lba_aligned, 0, 10, 2, 3)
    for f in (m.from_lba_exact, m.from_lba_aligned):
        refused(7, f, 5, 10, 0, 3)
        refused(7, f, 5, 10, 2, 0)
    refused(7, m.to_lba, CHS(0, 0, 0), 255, 63)
    refused(7, m.to_lba, CHS(9, 0, 0), 0, 63)
    same(m.to_lba(CHS(65535, 255, 255), 255, 255), 4261478654)
    for lba in range(66):
        same(m.to_lba(m.from_lba_exact(lba, 10, 2, 3), 2, 3), lba)


def alignment_numbers():
    for starts, align in (([63], 63), ([32768], 16384), ([0, 63], 63), ([1], 1), ([], 2048), ([1, 1], 1),
                          ([2048, 6144], 2048), ([16384 * 3, 16384 * 5], 16384), ([2, 3], 1),
                          ([16411], 1), ([0, 16411 * 6, 16411 * 4], 2), ([16381 * 16411], 16381), ([127 * 131], 131),
                          ([4294967295], 13107), ([4294967291, 0], 1), ([2 ** 31], 16384)):
        same(m.find_alignment(starts), align)
    refused(7, m.find_alignment, [0])
    refused(7, m.find_alignment, [0, 0])


def free_numbers():
    t = table(10000, 2048, part(0x83, 2048, 2048))
    same(m.free_runs(t), [Run(4096, 5904)])
    same(m.find_last_place(t, 1000), 8192)
    same(m.find_first_place(t, 5905), None)
    same(m.find_first_place(t, 5904), 4096)
    t = table(100, 1, part(0x83, 50, 100))
    same(m.free_runs(t), [Run(1, 49), Run(101, 48)])
    refused(7, m.free_runs, table(0, 1))
    refused(7, m.free_runs, table(100, 0))
    refused(19, m.free_runs_into, table(100, 1), m.RUNS - 1)
    refused(7, m.free_runs_into, table(0, 1), m.RUNS - 1)
    # the examples of the crate's own pages
    same(m.free_runs(table(100, 1, part(0x83, 6, 89))), [Run(1, 5), Run(95, 5)])
    same(m.find_first_place(table(100, 1, part(0x83, 6, 94)), 5), 1)
    same(m.find_last_place(table(100, 1, part(0x83, 6, 5)), 5), 95)
    same(m.find_optimal_place(table(100, 1, part(0x83, 11, 84)), 5), 95)
    same(m.get_maximum_partition_size(table(100, 1)), 99)
    # start 1 and last sector 1 lie among the positions, so the run after it starts at 2
    same(m.get_maximum_partition_size_for(table(100, 1, part(0x83, 1, 1)), 1), 99)
    refused(15, m.get_maximum_partition_size_for, table(100, 1), 5)
    refused(16, m.get_maximum_partition_size, table(100, 128))


def disk_k_numbers():
    x = disk_k()
    same(len(x), 1056)
    same(m.listing(x), "disk 20480 align 2048 logical 1\n1 05 00 4096 16384\n5 83 00 6144 2048\n")
    t = m.read_table(x)
    same(m.free_runs(t), [Run(2048, 2048), Run(6144, 4096), Run(12288, 8192)])
    same(m.broken_rules(t), [])
    same(m.wanted(x), None)

    def push(start, sectors, lent=m.STORES):
        return m.careful_push(x, 2048, Geometry(0, 0, 0), 0x83, start, sectors, bytearray(lent))

    for start in (8192, 8191):
        same([lba for lba, _ in push(start, 4096).stores], [8192, 4096])
    same(push(8191, 4096).stores, push(8192, 4096).stores)
    same(push(16384, 4096).table.logicals[1].partition.starting_lba, 18432)
    for number, start, sectors in ((12, 16384, 4097), (11, 16385, 4096), (10, 2048, 4096), (21, 6144, 4096),
                                   (7, 0, 4096), (7, 8192, 0), (9, 8192, 2048)):
        refused(number, push, start, sectors)
    same(push(8192, 2049).table.logicals[1].ebr_sectors, 4096)
    refused(19, push, 8192, 4096, 1031)
    out = bytearray(b"\xee" * 1040)
    stores = m.careful_push(x, 2048, Geometry(0, 0, 0), 0x83, 8192, 4096, out).stores
    same(bytes(out), b"".join(m.four(lba) + r for lba, r in stores) + b"\xee" * 8)
    out = bytearray(b"\xee" * m.STORES)
    same(m.careful_removal(x, 5, out).stores, [(4096, bytes(512))])
    same(bytes(out), m.four(4096) + bytes(512) + b"\xee" * 516)
    refused(17, m.careful_removal, x, 4, bytearray(0))
    refused(17, m.careful_removal, x, 6, bytearray(0))
    refused(19, m.careful_removal, x, 5, bytearray(1031))
    for sys in (0, 5, 15, 0x85, 0xC5, 0xD5):
        refused(23, m.careful_push, x, 2048, Geometry(0, 0, 0), sys, 0, 0, bytearray(0))
    refused(23, m.careful_push, x, 0, Geometry(1, 1, 64), 0x83, 0, 0, bytearray(0))
    refused(7, m.careful_push, x, 0, Geometry(1024, 1, 64), 0x83, 0, 0, bytearray(0))


def extract_rules():
    x = disk_k()
    same(answer(m.extract_disk, x)[0], "done")
    for at, value in ((0, 0), (0, 256), (0, 513), (0, 8192), (8, m.RECORDS + 1), (8, 1), (12, 25), (16, 33), (20, 1055),
                      (4, 4096), (4, 0), (24, 4096), (28, 0), (28, 20480)):
        refused(1, m.extract_disk, x[:at] + m.four(value) + x[at + 4:])
    refused(1, m.extract_disk, x + b"\0")
    refused(1, m.extract_disk, x[:-1])
    refused(1, m.extract_disk, x[:23])
    same(m.lookup_says(x, 20480), 2)
    same(m.lookup_says(x, 20479), 0)
    same(m.lookup_says(x[:23], 20480), 1)
    same(m.lookup(x, 1), b"")
    same(m.lookup(x, 20480), b"")
    same(m.lookup(x, 4096), x[544:])
    full = extract(1000, {i: bytes(512) for i in range(m.RECORDS)})
    refused(22, m.lay_over, full, m.RECORDS, bytes(512), bytearray(0))
    refused(2, m.lay_over, full, 1000, bytes(512), bytearray(0))
    refused(1, m.lay_over, full, 1000, bytes(511), bytearray(0))
    refused(19, m.lay_over, full, m.RECORDS - 1, bytes(512), bytearray(24 + m.STORE * m.RECORDS - 1))
    out = bytearray(b"\x11" * 1600)
    same(m.lay_over(x, 9, b"\x07" * 512, out), 1572)
    same(m.lookup(out[:1572], 9), b"\x07" * 512)
    same(m.lookup(out[:1572], 4096), m.lookup(x, 4096))
    same(bytes(out[1572:]), b"\x11" * 28)


def chain_rules():
    def chain(ebrs, x=1000, disk_size=100000):
        records = {0: m.header_bytes(header(part(5, x, 50000)))}
        for place, partition, link in ebrs:
            records[place] = m.ebr_bytes(m.EBR(bytes(446), partition, link))
        return extract(disk_size, records)

    def links(n):
        return [(1000 + 10 * i, part(0x83, 2, 3), part(5, 10 * (i + 1) if i + 1 < n else 0, 10)) for i in range(n)]

    same(len(m.read_table(chain(links(m.LOGICALS))).logicals), m.LOGICALS)
    refused(6, m.read_table, chain(links(m.LOGICALS + 1)))
    bad = links(m.LOGICALS + 1)
    bad[m.LOGICALS] = (1240, part(0x83, 2, 3, boot=1), m.NO_ENTRY)
    refused(4, m.read_table, chain(bad))
    same(m.wanted(chain(links(m.LOGICALS + 1)[:m.LOGICALS])), 1240)
    same(m.wanted(chain(links(m.LOGICALS + 2)[:m.LOGICALS + 1])), None)
    refused(3, m.read_table, chain(links(3)[:2]))
    same(m.read_table(chain(links(3)[1:])).logicals, ())
    same(m.wanted(chain([])), 1000)
    loop = [(1000, part(0x83, 2, 3), part(5, 10, 10)), (1010, part(0x83, 2, 3), part(5, 10, 10))]
    refused(5, m.read_table, chain(loop))
    loop[1] = (1010, part(0x83, 0xFFFFFFFF, 3), part(5, 10, 10))
    refused(7, m.read_table, chain(loop))
    loop[0] = (1000, part(0, 0xFFFFFFFF, 3), part(5, 10, 10))
    refused(7, m.read_table, chain(loop))
    past = [(1000, part(0x83, 2, 3), part(5, 99000, 10))]
    refused(2, m.read_table, chain(past))
    same(m.wanted(chain(past)), None)
    same(m.read_table(chain([], x=100000)).logicals, ())
    refused(2, m.read_table, extract(0, {}))
    refused(3, m.read_table, extract(1, {}))
    same(m.wanted(extract(1, {})), 0)
    same(m.wanted(extract(0, {})), None)
    refused(7, m.read_table, extract(1, {0: m.header_bytes(header(part(0x83, 0, 1)))}))


def pushes():
    ext = part(0x0F, 4096, 16384)
    refused(8, m.push, table(20480, 0), 0x83, 0, 0)
    refused(7, m.push, table(20480, 0, ext), 0x83, 1, 1)
    refused(7, m.push, table(20480, 1 << 31, ext), 0x83, 1, 1)
    refused(9, m.push, table(20480, (1 << 31) - 1, ext), 0x83, 1, 1)
    refused(7, m.push, table(20480, 2048, ext), 0x83, 0xFFFFF800, 4096)
    refused(10, m.push, table(20480, 2048, ext), 0x83, 2048, 4096)
    refused(7, m.push, table(20480, 2048, part(5, 0, 4095)), 0x83, 2048, 4096)
    refused(11, m.push, table(20480, 2048, part(5, 0, 4096)), 0x83, 2048, 4096)
    first = m.push(table(20480, 2048, ext), 0x83, 4096, 99999)
    same(first.number, 5)
    same(first.table.logicals[0].partition, part(0x83, 6144, 98304))
    same(first.table.logicals[0].ebr_sectors, None)
    same(m.push(first.table, 0x83, 8192, 4096).number, 6)
    crowded = replace(first.table, logicals=first.table.logicals * m.LOGICALS)
    refused(6, m.push, crowded, 0x83, 8192, 4096)
    refused(12, m.push, crowded, 0x83, 8192, 99999)
    refused(6, m.push, replace(crowded, logicals=crowded.logicals + crowded.logicals[:1]), 0x83, 0, 0)
    shaped = replace(first.table, cylinders=10, heads=255, sectors=63)
    refused(6, m.push, replace(crowded, cylinders=1023, heads=255, sectors=63), 0x83, 8192, 4096)
    refused(14, m.push, replace(crowded, cylinders=1, heads=16, sectors=63), 0x83, 8192, 4096)
    refused(13, m.push, replace(crowded, cylinders=1, heads=1, sectors=8), 0x83, 8192, 4096)
    same(m.push(shaped, 0x83, 8192, 4096).table.logicals[1].ebr_first_chs, m.from_lba_exact(8192, 10, 255, 63))


def lookups():
    t = m.read_table(disk_k())
    for sector, number in ((4095, None), (4096, None), (6144, 5), (8191, 5), (8192, None), (20480, None)):
        same(m.find_at_sector(t, sector), number)
    refused(15, m.remove_at_sector, t, 4096)
    same(m.remove_at_sector(t, 6144).logicals, ())
    far = table(100, 1, part(0x83, 10, 5), part(0x83, 90, 0xFFFFFFFF))
    same(m.find_at_sector(far, 12), 1)
    same(m.find_at_sector(far, 89), None)
    refused(7, m.find_at_sector, far, 90)
    same(m.remove_at_sector(far, 12).header.entries[0], m.NO_ENTRY)
    refused(17, m.remove, t, 4)
    refused(17, m.remove, t, 6)
    same(m.remove(t, 5).partition, t.logicals[0])
    same(m.table_len(t), 5)
    same([m.table_get(t, i) is None for i in range(7)], [True, False, False, False, False, False, True])
    same(m.update_from(t, extract(7, {}, 4096)).sector_size, 4096)
    same(m.new_from(extract(0, {}), b"abcd").disk_size, 0)
    same(m.check_geometry(replace(t, cylinders=1023, heads=1, sectors=63)), True)
    same(m.check_geometry(replace(t, cylinders=1024, heads=1, sectors=63)), False)
    same(m.get_cylinder_size(replace(t, heads=255, sectors=255)), 65025)


def writing():
    x = disk_k()
    t = m.read_table(x)
    out = bytearray(b"\x33" * 1060)
    same(m.write_table(t, x, out), m.Written(t, 1056))
    same(bytes(out), x + b"\x33" * 4)
    blank = extract(20480, {})
    same(m.write_table(t, blank, bytearray(1056)).length, 1056)
    refused(19, m.write_table, t, blank, bytearray(1055))
    refused(2, m.write_table, t, extract(0, {}), bytearray(0))
    refused(2, m.write_table, t, extract(4096, {}), bytearray(0))
    refused(1, m.write_table, t, blank[:-1], bytearray(0))
    bad = replace(t, header=replace(t.header, boot_signature=b"\0\0"))
    refused(3, m.write_table, bad, extract(0, {}), bytearray(0))
    refused(3, m.write_header_only, bad.header, extract(0, {}), bytearray(0))
    refused(2, m.write_header_only, t.header, extract(0, {}), bytearray(0))
    second = replace(t.logicals[0], absolute_ebr_lba=8192)
    two = replace(t, logicals=(t.logicals[0], second))
    refused(18, m.write_table, two, blank, bytearray(0))
    one = replace(t, logicals=(replace(t.logicals[0], partition=part(0x83, 6144, 2048, boot=1)), second))
    refused(4, m.write_table, one, blank, bytearray(0))
    linked = replace(second, ebr_sectors=4096)
    refused(18, m.write_table, replace(two, logicals=(t.logicals[0], linked)), blank, bytearray(0))
    shaped = replace(two, logicals=(t.logicals[0], linked), cylinders=1023, heads=255, sectors=63)
    same(m.write_table(shaped, blank, bytearray(9999)).table.logicals[1].ebr_last_chs,
         m.from_lba_exact(12287, 1023, 255, 63))
    crowded = extract(20480, {i + 1: bytes(512) for i in range(m.RECORDS - 1)})
    refused(22, m.write_table, t, crowded, bytearray(0))
    loose = replace(t, header=header())
    same(m.write_table(loose, blank, bytearray(540)), m.Written(loose, 540))


def soundness():
    t = m.read_table(disk_k())
    first = t.logicals[0]

    def broken(rule, **changes):
        same((m.broken_rules(replace(t, **changes)) or ["none"])[0], rule)

    def with_first(rule, **changes):
        broken(rule, logicals=(replace(first, **changes),))

    def with_second(rule, **changes):
        two = replace(first, partition=part(0x83, 10240, 2048), absolute_ebr_lba=8192, ebr_sectors=4096,
                      ebr_last_chs=m.NO_CHS)
        broken(rule, logicals=(first, replace(two, **changes)))

    with_second("none")
    broken("signature", header=replace(t.header, boot_signature=b"\xaa\x55"))
    broken("flag", header=header(part(5, 4096, 16384), part(0, 0, 0, boot=1)))
    with_first("flag", partition=part(0x83, 6144, 2048, boot=2))
    with_first("chs", ebr_last_chs=CHS(1024, 0, 0))
    with_first("chs", ebr_first_chs=CHS(1023, 255, 64))
    broken("primary start", header=header(part(5, 4096, 16384), part(0x83, 0, 1)))
    broken("primary sectors", header=header(part(5, 4096, 16384), part(0x83, 1, 0)))
    broken("primary end", disk_size=20479)
    broken("overlap", header=header(part(5, 4096, 16384), part(0x83, 4095, 2)))
    broken("one extended", header=header(part(5, 4096, 16384), part(5, 1, 1)))
    broken("no extended", header=header(part(0x83, 4096, 16384)))
    with_first("logical used", partition=part(0, 6144, 2048))
    with_first("logical extended", partition=part(0x85, 6144, 2048))
    with_first("logical sectors", partition=part(0x83, 6144, 0))
    with_first("logical start", partition=part(0x83, 4096, 2048))
    with_first("logical end", partition=part(0x83, 6144, 14337))
    with_first("none", partition=part(0x83, 6144, 14336))
    with_first("first ebr", absolute_ebr_lba=4097)
    with_second("link sectors", ebr_sectors=None)
    with_second("link sectors", ebr_sectors=0)
    with_second("link end", ebr_sectors=12289)
    with_second("none", ebr_sectors=12288)
    with_second("link covers", ebr_sectors=4095)
    with_second("logical end", absolute_ebr_lba=8191, partition=part(0x83, 8192, 1))
    refused(6, m.broken_rules, replace(t, logicals=(first,) * (m.LOGICALS + 1)))


def first_empty():
    """A first entry of type 0, relative start 0, no sectors."""
    t = m.read_table(disk_k())
    empty = replace(t.logicals[0], partition=part(0, 4096, 0))
    second = replace(t.logicals[0], partition=part(0x83, 10240, 2048), absolute_ebr_lba=8192, ebr_sectors=4096,
                     ebr_last_chs=m.NO_CHS)

    def broken(rule, *logicals, **changes):
        same((m.broken_rules(replace(t, logicals=logicals, **changes)) or ["none"])[0], rule)

    def with_first(rule, boot=0, sys=0, start=4096, sectors=0, first=m.NO_CHS, last=m.NO_CHS, **changes):
        alone = replace(empty, partition=Entry(boot, first, sys, last, start, sectors), **changes)
        broken(rule, alone)
        broken(rule, alone, second)

    with_first("none")
    with_first("none", boot=0x80)
    with_first("flag", boot=1)
    with_first("none", first=CHS(1023, 255, 63), last=CHS(1023, 255, 63))
    with_first("chs", first=CHS(1024, 0, 0))
    with_first("chs", last=CHS(0, 0, 64))
    with_first("chs", ebr_first_chs=CHS(0, 0, 64))
    with_first("chs", ebr_last_chs=CHS(1024, 0, 0))
    with_first("logical used", start=4097)
    with_first("logical used", start=4095)
    with_first("logical used", start=0)
    with_first("logical used", sectors=1)
    with_first("logical used", start=6144, sectors=2048)
    with_first("logical sectors", sys=0x83)
    with_first("logical extended", sys=0x05)
    with_first("first ebr", absolute_ebr_lba=4097, start=4097)
    with_first("none", ebr_sectors=1)
    broken("logical used", t.logicals[0], replace(second, partition=part(0, 8192, 0)))
    broken("logical used", empty, replace(second, partition=part(0, 8192, 0)))
    broken("logical used", empty, empty)
    broken("none", empty, replace(second, absolute_ebr_lba=4097, ebr_sectors=8191))
    broken("logical end", empty, replace(second, absolute_ebr_lba=4096, ebr_sectors=8192))
    broken("link sectors", empty, replace(second, ebr_sectors=None))
    broken("no extended", empty, header=header(part(0x83, 4096, 16384)))
    # the end X + 1, last or not
    broken("none", empty, header=header(part(5, 4096, 1)))
    broken("none", empty, header=header(part(5, 4096, 1)), disk_size=4097)
    broken("primary end", empty, header=header(part(5, 4096, 1)), disk_size=4096)
    # an unused slot is none, also where a count takes it for the first one
    broken("logical used", m.NO_LOGICAL, m.NO_LOGICAL)
    broken("first ebr", m.NO_LOGICAL)
    broken("logical used", t.logicals[0], m.NO_LOGICAL)
    same([m.end_of((empty, second), at) for at in (0, 1)], [4097, 12288])

    def small(disk_size, sectors, *ebrs):
        """An extended partition from sector 1 on, and its EBRs."""
        records = {0: m.header_bytes(header(part(5, 1, sectors)))}
        for place, partition, link in ebrs:
            records[place] = m.ebr_bytes(m.EBR(bytes(446), partition, link))
        return extract(disk_size, records)

    def push(x, start, sectors):
        return m.careful_push(x, 1, Geometry(0, 0, 0), 0x83, start, sectors, bytearray(m.STORES))

    def read_after(x, done):
        return m.read_disk(after_stores(x, done.stores))

    nothing = m.NO_ENTRY
    for disk_size in (3, 5):
        refused(21, push, small(disk_size, disk_size - 1, (1, nothing, nothing)), 1, 2)
    x = small(5, 4, (1, nothing, nothing))
    same(m.listing(x), "disk 5 align 1 logical 1\n1 05 00 1 4\n")
    done = push(x, 2, 2)
    new = m.ebr_bytes(m.EBR(bytes(446), part(0x83, 1, 1), nothing))
    linked = m.ebr_bytes(m.EBR(bytes(446), nothing, part(5, 1, 2)))
    same(done.stores, [(2, new), (1, linked)])
    same([l.partition for l in read_after(x, done).logicals], [part(0, 1, 0), part(0x83, 3, 1)])
    done = m.careful_removal(x, 5, bytearray(m.STORES))
    same(done.stores, [(1, bytes(512))])
    same(read_after(x, done).logicals, ())
    refused(17, m.careful_removal, x, 6, bytearray(m.STORES))
    x = small(4, 3, (1, nothing, part(5, 1, 2)), (2, part(0x83, 1, 1), nothing))
    same(m.listing(x), "disk 4 align 1 logical 2\n1 05 00 1 3\n6 83 00 3 1\n")
    done = m.careful_removal(x, 6, bytearray(m.STORES))
    same(done.stores, [(1, m.ebr_bytes(m.EBR(bytes(446), nothing, nothing)))])
    same(m.broken_rules(read_after(x, done)), [])
    same(len(read_after(x, done).logicals), 1)
    done = m.careful_removal(x, 5, bytearray(m.STORES))
    same(done.stores, [(1, m.ebr_bytes(m.EBR(bytes(446), part(0x83, 2, 1), nothing)))])
    same([l.partition for l in read_after(x, done).logicals], [part(0x83, 3, 1)])
    # an area of one sector has room for an EBR and for nothing else
    x = small(2, 1, (1, nothing, nothing))
    same(m.broken_rules(m.read_table(x)), [])
    refused(11, push, small(3, 2, (1, nothing, nothing)), 2, 2)
    same(m.careful_removal(x, 5, bytearray(m.STORES)).stores, [(1, bytes(512))])
    # written and read back
    x = small(9, 8, (1, nothing, part(5, 2, 3)), (3, part(0x83, 1, 2), nothing))
    out = bytearray(len(x))
    same(m.write_table(m.read_table(x), x, out).length, len(x))
    same(bytes(out), x)


def zones(*places, sectors=32768):
    """An extended partition at 4,096, and for each zone its EBR's place, its start and its sectors; each link is of another kind
    than a change would write it."""
    records = {0: m.header_bytes(header(part(5, 4096, sectors)))}
    for k, (place, first, length) in enumerate(places):
        link = m.NO_ENTRY
        if k + 1 < len(places):
            nxt = places[k + 1]
            link = Entry(0x80, CHS(k + 1, 2, 3), 0x85, CHS(k + 1, 5, 6), nxt[0] - 4096, nxt[1] + nxt[2] - nxt[0] + 7)
        records[place] = m.ebr_bytes(m.EBR(bytes([k + 1]) * 446, part(0x83 if length else 0, first - place, length), link))
    return extract(4096 + sectors, records)


def gaps():
    """Three zones, the middle one removed: from 8,192 on, the first one's end, to 16,384, the last one's EBR, there is room."""
    first, middle, last = (4096, 6144, 2048), (8192, 10240, 6144), (16384, 18432, 2048)
    full, x = zones(first, middle, last), zones(first, last)

    def push(x, start, sectors, align=2048, geometry=Geometry(0, 0, 0), lent=m.STORES):
        return m.careful_push(x, align, geometry, 0x07, start, sectors, bytearray(lent))

    done = m.careful_removal(full, 6, bytearray(m.STORES))
    same([l.partition for l in done.table.logicals], [l.partition for l in m.read_table(x).logicals])
    # both limits, at alignment 2,048 and at others
    for align, start, sectors, end in (
            (2048, 8192, 8192, 16384), (2048, 8192, 8191, 16384), (2048, 8192, 4096, 12288), (2048, 6145, 4096, 12288),
            (2048, 12288, 4096, 16384), (2048, 12287, 2049, 16384), (1, 8192, 2, 8194), (1, 16382, 2, 16384),
            (1, 8192, 8192, 16384), (2, 8191, 8191, 16384)):
        done = push(x, start, sectors, align)
        place = -(-start // align) * align
        same([lba for lba, _ in done.stores], [place, 4096])
        same([(l.absolute_ebr_lba, l.partition.starting_lba, l.partition.sectors) for l in done.table.logicals],
             [first, (place, place + align, end - place - align), last])
    for start, sectors in ((8192, 8193), (10240, 6145), (14336, 4096), (4096, 4096), (16384, 4096), (6144, 4096)):
        refused(21, push, x, start, sectors)
    for start in (4096, 4097, 6143, 6144, 8191, 16383, 16384, 16385, 18431, 18432, 20479):
        refused(21, push, x, start, 2, 1)
    for start, sectors in ((8191, 8193), (8192, 8193), (4096, 32768)):
        refused(21, push, x, start, sectors, 1)
    # 10, 11 and 12 come first; 21 before 19
    refused(10, push, x, 4095, 2, 1)
    refused(10, push, x, 4095, 32769, 1)
    refused(11, push, x, 36863, 2, 1)
    refused(12, push, x, 4096, 32769, 1)
    refused(12, push, x, 8192, 32768)
    refused(21, push, x, 8191, 2, 1, Geometry(0, 0, 0), 0)
    refused(19, push, x, 8192, 2, 1, Geometry(0, 0, 0), m.STORES - 1)
    # every byte: the link is written anew, with what the table has
    link = Entry(0, CHS(1, 2, 3), 5, CHS(1, 5, 6), 12288, 4103)
    for geometry, chs in ((Geometry(0, 0, 0), [m.NO_CHS] * 4),
                          (Geometry(99, 16, 63), [m.from_lba_exact(lba, 99, 16, 63) for lba in (10240, 12287, 8192, 12287)])):
        done = push(x, 8192, 4096, geometry=geometry)
        new = m.EBR(bytes(446), Entry(0, chs[0], 7, chs[1], 2048, 2048), link)
        earlier = m.EBR(b"\1" * 446, part(0x83, 2048, 2048), Entry(0, chs[2], 5, chs[3], 4096, 4096))
        same(done.stores, [(8192, m.ebr_bytes(new)), (4096, m.ebr_bytes(earlier))])
        same(done.table.logicals[1], m.Logical(Entry(0, chs[0], 7, chs[1], 10240, 2048), 8192, 4096, chs[2], chs[3], bytes(446)))
        same(done.table.logicals[2], m.read_table(x).logicals[1])
        same(m.read_disk(after_stores(x, done.stores[:1])), m.read_table(x))
        same(m.read_disk(after_stores(x, done.stores)).logicals, done.table.logicals)
    # behind the last one nothing follows
    same(push(x, 20480, 4096).stores[0], (20480, m.ebr_bytes(m.EBR(bytes(446), part(7, 2048, 2048), m.NO_ENTRY))))
    # two gaps, the first too small; one of exactly double the alignment
    x = zones(first, (12288, 14336, 2048), (22528, 24576, 2048))
    refused(21, push, x, 8192, 6144)
    same([l.absolute_ebr_lba for l in push(x, 16384, 6144).table.logicals], [4096, 12288, 16384, 22528])
    same([l.absolute_ebr_lba for l in push(x, 8192, 4096).table.logicals], [4096, 8192, 12288, 22528])
    refused(21, push, x, 8193, 4096)
    refused(9, push, x, 8192, 2048)
    # between an empty first EBR and the second it is a later one too
    x = zones((4096, 4096, 0), last)
    done = push(x, 6144, 10240)
    same(done.table.logicals[1], m.Logical(part(7, 8192, 8192), 6144, 10240, m.NO_CHS, m.NO_CHS, bytes(446)))
    same(done.stores[1], (4096, m.ebr_bytes(m.EBR(b"\1" * 446, m.NO_ENTRY, part(5, 2048, 10240)))))
    same([lba for lba, _ in push(x, 4097, 12287, 1).stores], [4097, 4096])
    refused(21, push, x, 4096, 2, 1)
    refused(21, push, x, 4097, 12288, 1)
    # as many as there can be, then one more
    x = zones(*((4096 + 1000 * k, 4097 + 1000 * k, 500) for k in range(m.LOGICALS - 1)))
    for k in range(m.LOGICALS - 1):
        done = push(x, 4597 + 1000 * k, 499, 1)
        same([l.partition.sys for l in done.table.logicals].index(7), k + 1)
    x = zones(*((4096 + 1000 * k, 4097 + 1000 * k, 500) for k in range(m.LOGICALS)))
    refused(6, push, x, 4597, 499, 1)
    refused(6, push, x, 4096, 499, 1)


def free_by_sectors():
    """21 counted out: no sector of the new EBR and its partition is one from an EBR to the end of its own partition."""
    rng = random.Random(22)
    tried = fits = 0
    for _ in range(300):
        t = answer(m.read_table, any_disk(rng))[1]
        if not isinstance(t, m.Table) or not m.sound(t) or not t.logicals:
            continue
        extended = t.header.extended()
        taken = {s for at, l in enumerate(t.logicals) for s in range(l.absolute_ebr_lba, m.end_of(t.logicals, at))}
        for place in range(extended.starting_lba, extended.end):
            for end in range(place + 2, min(place + 9, extended.end + 1)):
                new = m.Logical(part(0x83, place + 1, end - place - 1), place, end - place, m.NO_CHS, m.NO_CHS, bytes(446))
                free = taken.isdisjoint(range(place, end))
                same(m.in_gap(t.logicals, m.place_in_order(t.logicals, new), new), free)
                tried, fits = tried + 1, fits + (free and place < t.logicals[-1].absolute_ebr_lba)
    same(tried > 20000 and fits > 300, True)


def any_disk(rng):
    """A small disk with a chain, often sound."""
    disk_size = rng.randrange(60, 140)
    start = rng.randrange(1, 20)
    sectors = rng.randrange(10, disk_size - start + 2)
    at, places = start, []
    if rng.random() < 0.3:
        places.append((start, start, 0))
        at = start + 1 + rng.randrange(0, 4)
    n = rng.randrange(0, 6)
    while len(places) < n:
        first = at + rng.randrange(1, 4)
        length = rng.randrange(1, 12)
        if first + length > start + sectors and rng.random() < 0.95:
            break
        places.append((at, first, length))
        at = first + length + rng.choice((0, 1, 4, 9, 14))
    records = {0: m.header_bytes(header(part(rng.choice((5, 15, 0x85)), start, sectors)))}
    for i, (place, first, length) in enumerate(places):
        link = m.NO_ENTRY
        if i + 1 < len(places):
            nxt = places[i + 1]
            link = part(5, nxt[0] - start, nxt[1] + nxt[2] - nxt[0])
        records[place] = m.ebr_bytes(m.EBR(rng.randbytes(446), part(0x83 if length else 0, first - place, length), link, rng.randbytes(32)))
    return extract(disk_size, records)


def careful_disks():
    """Every prefix of the stores reads as the old table or as the new one."""
    rng = random.Random(20)
    accepted = behind_empty = into_gap = 0
    for _ in range(8000):
        x = any_disk(rng)
        old = answer(m.read_table, x)
        if rng.random() < 0.6:
            align = rng.choice((1, 1, 2, 3))
            geometry = rng.choice((Geometry(0, 0, 0), Geometry(20, 2, 4)))
            start = rng.randrange(0, 90)
            if old[0] == "done" and old[1].logicals and rng.random() < 0.5:
                start = m.end_of(old[1].logicals, rng.randrange(len(old[1].logicals))) + rng.randrange(-1, 3)
            change = answer(m.careful_push, x, align, geometry, 0x83, start, rng.randrange(0, rng.choice((9, 30))),
                            bytearray(m.STORES))
        else:
            change = answer(m.careful_removal, x, rng.randrange(4, 10), bytearray(m.STORES))
        if change[0] == "refused":
            continue
        accepted += 1
        behind_empty += m.is_empty_first(old[1].logicals, 0) if old[1].logicals else 0
        after, stores = change[1]
        into_gap += len(stores) == 2 and any(l.absolute_ebr_lba > stores[0][0] for l in old[1].logicals)
        for k in range(len(stores) + 1):
            now = m.read_disk(after_stores(x, stores[:k]))
            want = after if k == len(stores) else old[1]
            # alignment and geometry are the request's, not the disk's
            same(now, replace(want, align=now.align, cylinders=0, heads=0, sectors=0))
            same(m.broken_rules(now), [])
    same(accepted > 1000 and behind_empty > 300 and into_gap > 100, True)


def written_disks():
    """A sound table that is written reads back without its marks, and keeps them itself; other lent bytes stay."""
    rng = random.Random(21)
    for _ in range(1000):
        x = any_disk(rng)
        try:
            t = m.read_table(x)
        except Refusal:
            continue
        if not m.sound(t) or not t.logicals:
            continue
        out = bytearray(b"\x44" * 20000)
        done = m.write_table(t, extract(t.disk_size, {}), out)
        same(m.read_table(bytes(out[:done.length])), replace(t, logicals=tuple(replace(l, mark=bytes(32)) for l in t.logicals)))
        same(done.table, t)
        same(bytes(out[done.length:]), b"\x44" * (20000 - done.length))


for group in (chs_numbers, alignment_numbers, free_numbers, disk_k_numbers, extract_rules, chain_rules, pushes,
              lookups, writing, soundness, first_empty, gaps, free_by_sectors, careful_disks, written_disks):
    group()
print(f"selftest: {count} checks hold")
