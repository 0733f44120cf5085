"""Demand 3, replayed: careful changes of generated sound disks, stopped after every number of stores.

python3 replay.py [DISKS] generates so many disks. The stores are taken from the lent output's bytes. What a disk must read
as and what a record must hold are worked out here in whole numbers, from document 01 and the disk before, and not by the
functions of model.py that make the stores. At least a third of the pushes go into a gap, with a partition behind them. Before
that, faults that are planted into good answers, and into the rules for a gap, must each be noticed; with -v behind the number
the rules are named by which they were.
"""
import random
import sys
from dataclasses import replace
from functools import lru_cache, partial

import model as m
from model import CHS, EBR, Entry, Geometry, Refusal

# the same disks and records are read again and again
m.ebr_read = lru_cache(4096)(m.ebr_read)
m.header_read = lru_cache(64)(m.header_read)
m.read_table = lru_cache(4)(m.read_table)

BIG = 0xFFFFFFFF
LENT = b"\xee"
UNSET = Geometry(0, 0, 0)
PLAIN_TYPES = [n for n in range(1, 256) if n not in m.EXTENDED_TYPES]


class Violation(Exception):
    pass


def hold(rule, holds):
    if not holds:
        raise Violation(rule)


# ---------------------------------------------------------------- sound disks


def any_chs(rng):
    return rng.choice((m.NO_CHS, CHS(1023, 254, 63), CHS(rng.randrange(1024), rng.randrange(256), rng.randrange(64))))


def any_code(rng, length):
    return rng.choice((bytes(length), rng.randbytes(length)))


def any_type(rng):
    """A type that a data partition may have."""
    return rng.choice(PLAIN_TYPES)


def entry(rng, sys, start, sectors):
    return Entry(rng.choice((0, 0, 0x80)), any_chs(rng), sys, any_chs(rng), start, sectors)


def gap(rng):
    return rng.choice((0, 0, 0, 1, rng.randrange(9), rng.randrange(3000)))


def chain_places(rng, start, n):
    """EBR place, partition start and sectors of each of n logicals, and the least end. Often the first is empty: no sectors,
    and the start is its EBR's place. Often there is room between two, as where a zone was removed."""
    holes = rng.random() < 0.5
    places, at, least = [], start, start + 1
    for k in range(n):
        if k == 0 and rng.random() < 0.4:
            places.append((at, at, 0))
        else:
            first = at + 1 + gap(rng)
            length = rng.choice((1, 2, rng.randrange(1, 30), rng.randrange(1, 5000)))
            places.append((at, first, length))
            least = first + length
        at = least + gap(rng)
        if holes and rng.random() < 0.5:
            at += rng.choice((2, 4, 126, 4096, rng.randrange(2, 20000)))
    return places, least


def chain_records(rng, start, end, places):
    records = {}
    for i, (at, first, length) in enumerate(places):
        link = entry(rng, rng.randrange(256), 0, rng.randrange(BIG))
        if i + 1 < len(places):
            place, next_first, next_length = places[i + 1]
            covered = next_first + next_length - place
            link = entry(rng, rng.choice((0x05, rng.randrange(256))), place - start,
                         rng.choice((covered, covered, end - place)))
        ebr = EBR(any_code(rng, 446), entry(rng, any_type(rng) if length else 0, first - at, length), link, rng.randbytes(32))
        records[at] = m.ebr_bytes(ebr)
    return records


def no_ebr(rng):
    """What may stand at X under an empty chain: no signature, or a flag that is refused."""
    record = rng.randbytes(510)
    return rng.choice((bytes(512), record + b"\x55\xab", record[:446] + b"\x01" + record[447:] + b"\x55\xaa"))


def around(rng, start, end, limit):
    """Up to three primaries before and behind the extended partition, which overlap nothing, and D."""
    entries, at = [], 1
    for _ in range(rng.randrange(3)):
        if at + 1 < start:
            first = rng.randrange(at, start)
            at = rng.randrange(first, start) + 1
            entries.append(entry(rng, any_type(rng), first, at - first))
    at = end
    for _ in range(rng.randrange(4 - len(entries))):
        if at + 2 < limit:
            first = at + rng.choice((0, rng.randrange(limit - at - 1)))
            at = rng.randrange(first, limit) + 1 if rng.random() < 0.5 else first + 1
            entries.append(entry(rng, any_type(rng), first, at - first))
    disk_size = min(limit, at + rng.choice((0, 0, 1, rng.randrange(5000))))
    return entries, disk_size


def sound_disk(rng):
    """A disk that reads as a sound table: its extract."""
    if rng.random() < 0.03:
        start, end, places, here = 1, 1, [], {}
        extended = []
    else:
        start = rng.choice((1, 2, 63, 2048, rng.randrange(1, 10 ** 5), rng.randrange(1, BIG - 10 ** 6)))
        n = rng.choice((0, 1, 2, 3, m.LOGICALS - 1, m.LOGICALS, rng.randrange(m.LOGICALS + 1), rng.randrange(10), rng.randrange(10)))
        places, least = chain_places(rng, start, n)
        end = least + rng.choice((0, 1, rng.randrange(100), rng.randrange(50000), rng.randrange(10 ** 6),
                                  rng.randrange(BIG - least)))
        if rng.random() < 0.02:
            end = BIG
        here = chain_records(rng, start, end, places) if places else rng.choice(({}, {start: no_ebr(rng)}))
        extended = [entry(rng, rng.choice(m.EXTENDED_TYPES), start, end - start)]
    entries, disk_size = around(rng, start, end, BIG)
    unused = [entry(rng, 0, rng.randrange(BIG), rng.randrange(BIG)) for _ in range(4)]
    entries = (entries + extended + unused)[:4]
    rng.shuffle(entries)
    header = m.Header(any_code(rng, 440), rng.randbytes(4), rng.randbytes(2), tuple(entries), m.SIGNATURE)
    records = {0: m.header_bytes(header), **here}
    for _ in range(rng.randrange(6)):
        lba = rng.randrange(disk_size)
        if lba not in records and lba != start:
            records[lba] = rng.choice((bytes(512), rng.randbytes(512), m.ebr_bytes(EBR(bytes(446), m.NO_ENTRY, m.NO_ENTRY))))
    return m.extract_bytes(m.Disk(rng.choice(m.SECTOR_SIZES), disk_size, records))


# ---------------------------------------------------------------- requests


def rooms(t):
    """Where there may be room for a new EBR and its partition: from one end to the next EBR, and behind the last one."""
    extended = t.header.extended()
    if not extended:
        return [(0, t.disk_size)]
    ends = [l.partition.end + (l.partition.sys == 0) for l in t.logicals]
    places = [l.absolute_ebr_lba for l in t.logicals[1:]]
    return list(zip(ends or [extended.starting_lba], [*places, extended.end]))


def any_push(rng, t):
    """Alignment, geometry, type, start and sectors: often near what fits, and often in a gap, where there is one."""
    align = rng.choice((1, 1, 1, 2, 7, 63, rng.choice((2048, rng.randrange(5000)))))
    *gaps, last = rooms(t)
    large = [(low, high) for low, high in gaps if up(low, align or 1) + 2 * align <= high]
    low, high = rng.choice(large or gaps) if gaps and rng.random() < 0.75 else last
    room = max(0, high - low)
    start = low + rng.choice((0, 0, 1, rng.randrange(room + 1), rng.randrange(room + 1), room // 2, room - 2 * align))
    start -= rng.choice((0, 0, 0, 0, 1, align))
    left = max(0, high - max(start, 0))
    sectors = rng.choice((2 * align, 2 * align + 1, 3 * align, left, left // 2, left - align, rng.randrange(left + 1)))
    sectors += rng.choice((0, 0, 0, 0, 0, 1, 1, BIG))
    heads, per_track = rng.choice(((255, 63), (255, 63), (255, 63), (16, 63), (1, 1), (255, 64)))
    whole = max(1, min(1023, high // (heads * per_track) + 1))
    geometry = rng.choice((UNSET, UNSET, UNSET, Geometry(1023, heads, per_track), Geometry(whole, heads, per_track),
                           Geometry(rng.randrange(1200), heads, per_track)))
    sys = any_type(rng) if rng.random() < 0.95 else rng.choice((0, *m.EXTENDED_TYPES))
    within = [min(max(n, 0), BIG) for n in (start, sectors)]
    return align, geometry, sys, *within


def empty_first(t):
    """Is there an EBR at the extended partition's start that holds no partition?"""
    return bool(t.logicals) and t.logicals[0].partition.sys == 0


def up(n, align):
    return -(-n // align) * align


def new_place(align, start, sectors):
    """Where the new EBR and its partition lie, and where both end."""
    place = up(start, align)
    return place, place + align, place + up(sectors, align)


def cylinder(g, lba):
    return lba // (g.heads * g.sectors)


def is_free(t, place, end):
    """Request 2's own words: the new EBR and its partition overlap no partition and no EBR, and do not stand before the first
    or between an EBR and its own partition."""
    overlaps = any(place <= l.absolute_ebr_lba < end or (place < l.partition.end and l.partition.starting_lba < end)
                   for l in t.logicals)
    between = any(l.absolute_ebr_lba < place < l.partition.starting_lba for l in t.logicals)
    return not overlaps and not between and (not t.logicals or place > t.logicals[0].absolute_ebr_lba)


def push_holds(t, align, geometry, sys, start, sectors):
    """Whether a careful push of a sound table is to be accepted: every condition at once, in whole numbers."""
    extended = t.header.extended()
    if not extended or align == 0 or start == 0 or sectors == 0 or len(t.logicals) == m.LOGICALS:
        return False
    if sys == 0 or sys in m.EXTENDED_TYPES:
        return False
    place, first, end = new_place(align, start, sectors)
    fits = (extended.starting_lba <= place <= extended.end - 2 * align and end <= extended.end
            and end - place >= 2 * align and is_free(t, place, end))
    if not fits or not 0 < geometry.cylinders <= 1023 or geometry.heads == 0 or geometry.sectors == 0:
        return fits
    if geometry.sectors > 63:
        return False
    return cylinder(geometry, end - 1) <= geometry.cylinders


# ---------------------------------------------------------------- what must hold


def contents(disk):
    """What a disk reads as; alignment and geometry are left out."""
    try:
        header = m.read_header(disk)
        extended = header.extended()
        return disk.sector_size, disk.disk_size, header, m.read_chain(disk, extended) if extended else ()
    except Refusal as r:
        return f"refused {r.number}"


def contents_of(t):
    return t.sector_size, t.disk_size, t.header, t.logicals


def data_partitions(t):
    primaries = [e for e in t.header.entries if m.is_used(e) and not m.is_extended(e)]
    return primaries + [l.partition for l in t.logicals[empty_first(t):]]


def decoded(out, n):
    return [(m.little(out[at:at + 4]), bytes(out[at + 4:at + m.STORE])) for at in range(0, m.STORE * n, m.STORE)]


def after(disk, stores):
    return m.Disk(disk.sector_size, disk.disk_size, {**disk.records, **dict(stores)})


def laid(x, stores):
    """The extract with the stores laid over it; none where a 65th record is refused."""
    for lba, record in stores:
        out = bytearray(len(x) + m.STORE)
        try:
            x = bytes(out[:m.lay_over(x, lba, record, out)])
        except Refusal as r:
            hold("lay-over refused", r.number == 22)
            return None
    return x


def replayed(x, before, wanted, stores):
    """Demand 3 of an accepted change: the table before, the table that is wanted, and the stores."""
    disk = m.extract_disk(x)
    hold("one or two stores", len(stores) in (1, 2))
    hold("inside the disk", all(lba < disk.disk_size and len(record) == 512 for lba, record in stores))
    hold("sound after", m.sound(wanted))
    for k in range(len(stores) + 1):
        now = contents(after(disk, stores[:k]))
        hold("the table before or after", now in (contents_of(before), contents_of(wanted)))
        if k == len(stores):
            hold("the table after, once all is stored", now == contents_of(wanted))
        over = laid(x, stores[:k]) if k > 0 else None
        hold("the laid-over extract reads so too", over is None or contents(m.extract_disk(over)) == now)
    for lba, _ in stores:
        for e in data_partitions(before) + data_partitions(wanted):
            hold("clear of data", not e.starting_lba <= lba < e.end)


def link_bytes(extended, l):
    """The link to a later logical, or the end."""
    if l is None:
        return bytes(16)
    return (b"\x00" + m.chs_bytes(l.ebr_first_chs) + bytes([extended.sys]) + m.chs_bytes(l.ebr_last_chs)
            + m.four(l.absolute_ebr_lba - extended.starting_lba) + m.four(l.ebr_sectors))


def relinked(record, link):
    """An EBR with another link: its own first 462 bytes, and its own mark."""
    return record[:462] + link + record[478:]


def push_records(disk, t, wanted, align, sys, start, sectors):
    """The stores of a push: a new EBR without a mark, with its link to what follows, then the one before, but for its link."""
    extended = t.header.extended()
    place, first, end = new_place(align, start, sectors)
    before = [l for l in t.logicals if l.absolute_ebr_lba < place]
    behind = t.logicals[len(before):]
    new = wanted.logicals[len(before)]
    if not t.logicals:
        place = extended.starting_lba
    partition = (b"\x00" + m.chs_bytes(new.partition.first_chs) + bytes([sys]) + m.chs_bytes(new.partition.last_chs)
                 + m.four(first - place) + m.four(end - first))
    stores = [(place, bytes(446) + partition + link_bytes(extended, behind[0] if behind else None) + bytes(32) + b"\x55\xaa")]
    if before:
        last = before[-1].absolute_ebr_lba
        stores.append((last, relinked(disk.records[last], link_bytes(extended, new))))
    return stores


def removal_records(disk, t, at):
    """The store of a removal: the EBR before it with the link behind it; X with the second; zeros at X."""
    extended = t.header.extended()
    behind = t.logicals[at + 1] if at + 1 < len(t.logicals) else None
    if at > 0:
        place = t.logicals[at - 1].absolute_ebr_lba
        return [(place, relinked(disk.records[place], link_bytes(extended, behind)))]
    if behind is None:
        return [(extended.starting_lba, bytes(512))]
    third = t.logicals[2] if len(t.logicals) > 2 else None
    second = disk.records[behind.absolute_ebr_lba]
    moved = m.four(behind.partition.starting_lba - extended.starting_lba)
    return [(extended.starting_lba, relinked(second[:454] + moved + second[458:], link_bytes(extended, third)))]


def in_first_place(t):
    """01's first-place rule."""
    if not t.logicals:
        return t
    extended, first = t.header.extended(), t.logicals[0]
    first = m.Logical(first.partition, extended.starting_lba, None, extended.first_chs, None, first.bootstrap_code,
                      first.mark)
    return replace(t, logicals=(first, *t.logicals[1:]))


def in_order(t):
    """The logical partitions in the order of their EBRs."""
    return replace(t, logicals=tuple(sorted(t.logicals, key=lambda l: l.absolute_ebr_lba)))


def checked(x, t, made, wanted, records, out):
    """An accepted change: made is the second program's answer, or a planted one."""
    stores = decoded(out, len(made.stores))
    hold("other lent bytes stay", bytes(out[m.STORE * len(stores):]) == LENT * (len(out) - m.STORE * len(stores)))
    replayed(x, t, wanted, stores)
    hold("each byte of the stores", stores == records)
    hold("the answered table", contents_of(made.table) == contents_of(wanted))


def pushed(x, t, request, made, out):
    align, geometry, sys, start, sectors = request
    asked = replace(t, align=align, cylinders=geometry.cylinders, heads=geometry.heads, sectors=geometry.sectors)
    wanted = in_first_place(in_order(m.push(asked, sys, start, sectors).table))
    checked(x, t, made, wanted, push_records(m.extract_disk(x), t, wanted, align, sys, start, sectors), out)


def removed(x, t, number, made, out):
    wanted = in_first_place(m.remove(t, number).table)
    checked(x, t, made, wanted, removal_records(m.extract_disk(x), t, number - 5), out)


# ---------------------------------------------------------------- the run


def try_push(rng, x, t, changed=lambda made, out: made):
    request = any_push(rng, t)
    room = rng.choice((m.STORES, m.STORES, m.STORES, m.STORES + 8, m.STORES - 1, m.STORE))
    out = bytearray(LENT * room)
    try:
        made = m.careful_push(x, *request, out)
    except Refusal:
        hold("lent bytes stay on a refusal", out == LENT * room)
        hold("refused only as listed", room < m.STORES or not push_holds(t, *request))
        return None
    hold("accepted only if no refusal applies", room >= m.STORES and push_holds(t, *request))
    pushed(x, t, request, changed(made, out), out)
    return made


def try_removal(rng, x, t, number, changed=lambda made, out: made):
    room = rng.choice((m.STORES, m.STORES, m.STORES, m.STORES + 8, m.STORES - 1))
    out = bytearray(LENT * room)
    try:
        made = m.careful_removal(x, number, out)
    except Refusal:
        hold("lent bytes stay on a refusal", out == LENT * room)
        hold("refused only as listed", room < m.STORES or not 5 <= number < 5 + len(t.logicals))
        return False
    hold("accepted only if no refusal applies", room >= m.STORES and 5 <= number < 5 + len(t.logicals))
    removed(x, t, number, changed(made, out), out)
    return True


def numbers(rng, t):
    """The first, the last, one between, one absent."""
    last = 4 + len(t.logicals)
    return {5, last, rng.randrange(4, 7 + len(t.logicals))}


def in_a_gap(t, made):
    """Does a partition of the table before stand behind the new one?"""
    return any(l.absolute_ebr_lba > made.stores[0][0] for l in t.logicals)


def run(disks, seed):
    rng = random.Random(seed)
    counts = dict.fromkeys(("pushes", "gaps", "removals", "empty", "behind", "gone"), 0)
    for _ in range(disks):
        x = sound_disk(rng)
        t = m.read_table(x)
        hold("a generated disk is sound", not m.broken_rules(t))
        counts["empty"] += empty_first(t)
        for _ in range(3):
            made = try_push(rng, x, t)
            if made:
                counts["pushes"] += 1
                counts["behind"] += empty_first(t)
                counts["gaps"] += in_a_gap(t, made)
        for number in numbers(rng, t):
            done = try_removal(rng, x, t, number)
            counts["removals"] += done
            counts["gone"] += done and empty_first(t)
    hold("a fifth of the disks have an empty first EBR", disks < 100 or 5 * counts["empty"] >= disks)
    hold("a third of the pushes go into a gap", disks < 100 or 3 * counts["gaps"] >= counts["pushes"])
    return counts


# ---------------------------------------------------------------- planted faults


def altered(out, at, new):
    out[at:at + len(new)] = new


def follows(made):
    """The index of the new one in the table after a push that has a partition behind it; else none."""
    places = [l.absolute_ebr_lba for l in made.table.logicals]
    if len(made.stores) == 2 and made.stores[0][0] != places[-1]:
        return places.index(made.stores[0][0])
    return None


def exchanged(made, out):
    """The link stored before its new EBR."""
    if len(made.stores) == 2:
        out[:m.STORES] = out[m.STORE:m.STORES] + out[:m.STORE]
    return made


def repeated(made, out):
    """The first store repeated as the second."""
    if len(made.stores) == 2:
        out[m.STORE:m.STORES] = out[:m.STORE]
    return made


def one_dropped(made, out):
    """A store fewer."""
    altered(out, m.STORE * (len(made.stores) - 1), LENT * m.STORE)
    return made._replace(stores=made.stores[:-1])


def other_type(made, out):
    """The link's type wrong: it reads the same, and the bytes tell."""
    at = m.STORE * (len(made.stores) - 1) + 4 + 462
    if any(out[at:at + 16]):
        out[at + 4] ^= 0x0A
    return made


def partition_type(made, out):
    """The partition's type wrong."""
    out[4 + 450] ^= 0x40
    return made


def code_lost(made, out):
    """The code of the record that is rewritten wiped."""
    at = m.STORE * (len(made.stores) - 1) + 4
    altered(out, at, bytes(446))
    return made


def mark_wiped(made, out):
    """The mark of the record that is rewritten wiped."""
    at = m.STORE * (len(made.stores) - 1) + 4
    altered(out, at + 478, bytes(32))
    return made


def mark_inherited(made, out):
    """The new partition with its neighbour's mark."""
    if len(made.stores) == 2:
        altered(out, 4 + 478, out[m.STORE + 4 + 478:m.STORE + 4 + 510])
    return made


def one_sector_on(made, out):
    """A store one sector higher."""
    altered(out, 0, m.four(m.little(out[:4]) + 1))
    return made


def on_data(made, out):
    """A second store on the first sector of a data partition: it reads the same."""
    if len(made.stores) == 1 and data_partitions(made.table):
        lba = data_partitions(made.table)[-1].starting_lba
        altered(out, m.STORE, m.four(lba) + bytes(512))
        made = made._replace(stores=made.stores * 2)
    return made


def over_empty(made, out):
    """The second partition stored over an empty first EBR, as into an empty chain."""
    if len(made.stores) == 2 and len(made.table.logicals) == 2 and empty_first(made.table):
        altered(out, 0, out[m.STORE:m.STORE + 4])
        altered(out, m.STORE, LENT * m.STORE)
        made = made._replace(stores=made.stores[:1])
    return made


def first_filled(made, out):
    """An empty first EBR given a type in the store of its link."""
    if len(made.stores) == 2 and len(made.table.logicals) == 2 and empty_first(made.table):
        out[m.STORE + 4 + 450] = 0x83
    return made


def exchanged_in_gap(made, out):
    """The link to the new EBR stored before it where others follow, which are all lost in between."""
    return exchanged(made, out) if follows(made) is not None else made


def without_link(made, out):
    """The new EBR without its link: all that follow are lost."""
    if follows(made) is not None:
        altered(out, 4 + 462, bytes(16))
    return made


def link_one_on(made, out):
    """The new EBR's link leads to the one behind the next, or is an end where there is none: the next one is lost."""
    at = follows(made)
    if at is not None:
        altered(out, 4 + 462, m.record_at(made.table, at + 1)[1][462:478])
    return made


def link_type(made, out):
    """The type of the new EBR's own link wrong: it reads the same, and the bytes tell."""
    if follows(made) is not None:
        out[4 + 462 + 4] ^= 0x80
    return made


def answered_last(made, out):
    """The new one last in the answered table only."""
    at = follows(made)
    if at is not None:
        logicals = made.table.logicals
        made = made._replace(table=replace(made.table, logicals=logicals[:at] + logicals[at + 1:] + logicals[at:at + 1]))
    return made


def put_last(made, out):
    """The new one put last in the order: its EBR ends the chain, and the former last one's links back to it."""
    if follows(made) is not None:
        made = answered_last(made, out)
        last = len(made.table.logicals) - 1
        for k, at in enumerate((last, last - 1)):
            lba, record = m.record_at(made.table, at)
            altered(out, m.STORE * k, m.four(lba) + record)
    return made


def byte_behind(made, out):
    """A lent byte behind the stores changed."""
    if len(out) > m.STORE * len(made.stores):
        out[m.STORE * len(made.stores)] = 0
    return made


FAULTS = (exchanged, repeated, one_dropped, other_type, partition_type, code_lost, mark_wiped, mark_inherited, one_sector_on, on_data,
          over_empty, first_filled, exchanged_in_gap, without_link, link_one_on, link_type, answered_last, put_last, byte_behind)


def only_earlier(logicals, at, new):
    """Only the one before looked at."""
    return m.end_of(logicals, at - 1) <= new.absolute_ebr_lba


def only_later(logicals, at, new):
    """Only the one behind looked at."""
    return at == len(logicals) or new.partition.end <= logicals[at].absolute_ebr_lba


def by_new_end(logicals, new):
    """The one before chosen by the end of the new one, instead of its EBR."""
    return sum(l.absolute_ebr_lba <= new.partition.end for l in logicals)


def by_own_end(logicals, new):
    """The one before chosen by its own end, instead of its EBR: it ends before the new one's EBR."""
    return sum(m.end_of(logicals, at) < new.absolute_ebr_lba for at in range(len(logicals)))


def always_last(logicals, new):
    """Behind the last one only."""
    return len(logicals)


# What is planted into a function of model.py that decides.
RULES = (("in_gap", only_earlier), ("in_gap", only_later), ("place_in_order", by_new_end), ("place_in_order", by_own_end),
         ("place_in_order", always_last))


def noticed(fault, disks, seed):
    """How the fault is noticed: the rules that it breaks, and how often."""
    rng = random.Random(seed)
    broken = {}
    for _ in range(disks):
        x = sound_disk(rng)
        t = m.read_table(x)
        for attempt in (lambda: try_push(rng, x, t, fault), lambda: try_removal(rng, x, t, 5 + rng.randrange(3), fault)):
            try:
                attempt()
            except Violation as v:
                broken[str(v)] = broken.get(str(v), 0) + 1
    return broken


def noticed_rule(name, fault, disks, seed):
    """The same for a function of model.py, whose place the fault takes."""
    kept = getattr(m, name)
    setattr(m, name, fault)
    try:
        return noticed(lambda made, out: made, disks, seed)
    finally:
        setattr(m, name, kept)


if __name__ == "__main__":
    disks = int(sys.argv[1]) if len(sys.argv) > 1 else 3000
    plants = [(fault, partial(noticed, fault)) for fault in FAULTS]
    plants += [(fault, partial(noticed_rule, name, fault)) for name, fault in RULES]
    for fault, plant in plants:
        # what few disks give occasion to is sought on more of them
        broken = plant(60, 31) or plant(1000, 31)
        if not broken:
            sys.exit(f"replay: the planted fault {fault.__name__} was not noticed")
        if "-v" in sys.argv:
            print(fault.__name__, broken)
    try:
        counts = run(disks, 30)
    except Violation as v:
        sys.exit(f"replay: {v}: not so")
    print("replay: demand 3 holds on {disks} sound disks, of {pushes} careful pushes, {gaps} of them into a gap, and {removals} "
          "careful removals; {empty} of the disks have an empty first EBR, with {behind} of the pushes and {gone} of the "
          "removals; {faults} planted faults noticed".format(disks=disks, faults=len(plants), **counts))
