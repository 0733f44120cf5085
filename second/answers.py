"""Answers the cases of a case file by model.py: python3 answers.py < cases > answers

A case file is read line by line; words are separated by single spaces. Numbers are decimal,
byte strings are lower-case hex. The commands # (a note), x, xp and o only change what later
ones work on and print nothing; every other prints one line, its word and then the answer.

The commands work on X, the lent input, on O, the lent output, and on the numbers of their
line. A CHS address is three numbers: cylinder, head, sector. An entry is ten: flag, first
CHS, type, last CHS, start, sectors. An MBR record's fields are its disk signature, copy mark
and boot signature byte by byte and its four entries; its code is the start of X. An EBR's
fields are its partition's entry and its link's; its code is the start of X, its mark the 32
bytes behind that.

A command on a table reads it from X; the first six numbers of its line are the alignment,
the geometry (cylinders, heads, sectors), the count and D that the table is handed in with.

A refusal prints `refused N`. A command that is lent O also prints O's length and checksum,
after a refusal too, since then every byte must have stayed; before them the answer's length,
where it has one.
"""
import sys
from dataclasses import replace
from functools import lru_cache

import model as m
from model import CHS, Entry, Refusal


class State:
    def __init__(self):
        self.x = b""
        self.o = bytearray()


def checksum(b):
    total = 0
    for byte in b:
        total = (total * 31 + byte) % 4294967291
    return total


# ---------------------------------------------------------------- values of a line


def entry_of(numbers):
    boot, c1, h1, s1, kind, c2, h2, s2, start, sectors = numbers
    return Entry(boot, CHS(c1, h1, s1), kind, CHS(c2, h2, s2), start, sectors)


def header_of(x, numbers):
    if len(numbers) != 48:
        raise ValueError("a header is 48 numbers")
    entries = tuple(entry_of(numbers[at:at + 10]) for at in (8, 18, 28, 38))
    return m.Header((x + bytes(440))[:440], bytes(numbers[:4]), bytes(numbers[4:6]), entries, bytes(numbers[6:8]))


def ebr_of(x, numbers):
    x = (x + bytes(478))[:478]
    return m.EBR(x[:446], entry_of(numbers[:10]), entry_of(numbers[10:]), x[446:])


# ---------------------------------------------------------------- answers as text


def chs_text(c):
    return f"{c.cylinder} {c.head} {c.sector}"


def entry_text(e):
    return f"{e.boot} {chs_text(e.first_chs)} {e.sys} {chs_text(e.last_chs)} {e.starting_lba} {e.sectors}"


def hex_text(b):
    return " ".join(f"{byte:02x}" for byte in b)


def header_text(h):
    marks = hex_text(h.disk_signature + h.copy_protected + h.boot_signature)
    return f"{checksum(h.bootstrap_code)} {marks} " + " ".join(entry_text(e) for e in h.entries)


def ebr_text(e):
    return f"{checksum(e.bootstrap_code)} {checksum(e.mark)} {entry_text(e.partition)} {entry_text(e.link)}"


def found_text(e):
    return "none" if e is None else entry_text(e)


def truth(b):
    return "yes" if b else "no"


def lent_out(s, f, *args):
    try:
        length = f(*args)
        said = "done" if length is None else str(length)
    except Refusal as r:
        said = f"refused {r.number}"
    return f"{said} {len(s.o)} {checksum(s.o)}"


# ---------------------------------------------------------------- what the commands work on


def x(s, length):
    s.x = bytes(int(length))


def xp(s, at, text):
    at, new = int(at), bytes.fromhex(text)
    if at + len(new) > len(s.x):
        raise ValueError(f"{len(new)} bytes at {at} of {len(s.x)}")
    s.x = s.x[:at] + new + s.x[at + len(new):]


def o(s, length, fill):
    s.o = bytearray([int(fill)]) * int(length)


# ---------------------------------------------------------------- CHS


def chs_new(s, *chs):
    return chs_text(CHS(*chs))


def chs_empty(s):
    return chs_text(m.NO_CHS)


def chs_exact(s, *numbers):
    return chs_text(m.from_lba_exact(*numbers))


def chs_aligned(s, *numbers):
    return chs_text(m.from_lba_aligned(*numbers))


def chs_to_lba(s, cylinder, head, sector, heads, sectors):
    return str(m.to_lba(CHS(cylinder, head, sector), heads, sectors))


def chs_is_empty(s, *chs):
    return truth(m.chs_is_empty(CHS(*chs)))


def chs_is_valid(s, cylinder, head, sector, *geometry):
    return truth(m.chs_is_valid(CHS(cylinder, head, sector), *geometry))


def chs_to_bytes(s, *chs):
    return hex_text(m.chs_bytes(CHS(*chs)))


def chs_of_bytes(s, *three):
    return chs_text(m.chs_of_bytes(bytes(three)))


# ---------------------------------------------------------------- entries and records


def entry_boot(s):
    return f"{m.BOOT_ACTIVE} {m.BOOT_INACTIVE}"


def entry_empty(s):
    return entry_text(m.NO_ENTRY)


def entry_is(s, *numbers):
    """Used, unused, extended, active."""
    e = entry_of(numbers)
    return " ".join(map(truth, (m.is_used(e), not m.is_used(e), m.is_extended(e), m.is_active(e))))


def mbr_new(s, *disk):
    return header_text(m.header_new(bytes(disk)))


def mbr_get(s, *numbers):
    return found_text(m.header_get(header_of(s.x, numbers[:48]), numbers[48]))


def mbr_extended(s, *numbers):
    return found_text(header_of(s.x, numbers).extended())


def mbr_copy(s, *numbers):
    return m.copy_mark(header_of(s.x, numbers))


def mbr_read(s):
    return header_text(m.header_read(s.x))


def mbr_write(s, *numbers):
    return lent_out(s, m.header_write, header_of(s.x, numbers), s.o)


def mbr_again(s):
    """What X reads as, written."""
    return lent_out(s, m.header_write, m.header_read(s.x), s.o)


def ebr_read(s):
    return ebr_text(m.ebr_read(s.x))


def ebr_write(s, *numbers):
    return lent_out(s, m.ebr_write, ebr_of(s.x, numbers), s.o)


def ebr_again(s):
    """What X reads as, written."""
    return lent_out(s, m.ebr_write, m.ebr_read(s.x), s.o)


# ---------------------------------------------------------------- the extract


def extract_check(s):
    """Sector size, D and the number of records."""
    disk = m.extract_disk(s.x)
    return f"{disk.sector_size} {disk.disk_size} {len(disk.records)}"


def extract_find(s, lba):
    """The record's length and checksum, then the second answer."""
    record = m.lookup(s.x, lba)
    return f"{len(record)} {checksum(record)} {m.lookup_says(s.x, lba)}"


def extract_place(s, sector_size, lba):
    return str(m.byte_place(sector_size, lba))


def extract_lay(s, lba, length):
    """The last bytes of X, so many, are the record; the extract is what is before."""
    end = max(0, len(s.x) - length)
    return lent_out(s, lambda: m.lay_over(s.x[:end], lba, s.x[end:], s.o))


# ---------------------------------------------------------------- reading


def none_or(value, text=str):
    return "none" if value is None else text(value)


def logical_text(l):
    return (f"{entry_text(l.partition)} {l.absolute_ebr_lba} {none_or(l.ebr_sectors)} {chs_text(l.ebr_first_chs)} "
            f"{none_or(l.ebr_last_chs, chs_text)} {checksum(l.bootstrap_code)} {checksum(l.mark)}")


def table_text(t):
    """Sector size, D, alignment, geometry and the count, then the header, then each logical partition."""
    fields = (t.sector_size, t.disk_size, t.align, t.cylinders, t.heads, t.sectors, len(t.logicals))
    return " ".join([*map(str, fields), header_text(t.header), *map(logical_text, t.logicals[:m.LOGICALS])])


def read(s):
    return table_text(m.read_table(s.x))


def read_header(s):
    return header_text(m.read_header_only(s.x))


def wanted(s):
    return none_or(m.wanted(s.x))


# ---------------------------------------------------------------- changes of a table


@lru_cache(maxsize=1)
def table_of(x):
    return m.read_table(x)


def handed_in(x, align, cylinders, heads, sectors, count, disk_size):
    """The table that X reads as, with this alignment, geometry and D, and empty partitions up to the count."""
    t = table_of(x)
    logicals = (t.logicals + (m.NO_LOGICAL,) * count)[:count]
    return replace(t, align=align, cylinders=cylinders, heads=heads, sectors=sectors, disk_size=disk_size,
                   logicals=logicals)


def get(s, *numbers):
    return found_text(m.table_get(handed_in(s.x, *numbers[:6]), numbers[6]))


def len_(s, *numbers):
    return str(m.table_len(handed_in(s.x, *numbers)))


def find(s, *numbers):
    return none_or(m.find_at_sector(handed_in(s.x, *numbers[:6]), numbers[6]))


def remove(s, *numbers):
    t = handed_in(s.x, *numbers[:6])
    try:
        t, removed = m.remove(t, numbers[6])
    except Refusal as r:
        return f"refused {r.number} {table_text(t)}"
    return f"done {logical_text(removed)} {table_text(t)}"


def changed(f, t, *args):
    """What the call says, and the table, refused or not."""
    try:
        return f"done {table_text(f(t, *args))}"
    except Refusal as r:
        return f"refused {r.number} {table_text(t)}"


def remove_at(s, *numbers):
    return changed(m.remove_at_sector, handed_in(s.x, *numbers[:6]), numbers[6])


def check_geometry(s, *numbers):
    return truth(m.check_geometry(handed_in(s.x, *numbers)))


def cylinder_size(s, *numbers):
    return str(m.get_cylinder_size(handed_in(s.x, *numbers)))


def update_chs(s, *numbers):
    """The logical partition of a place from 0 on, with the table's geometry."""
    t = handed_in(s.x, *numbers[:6])
    l = t.logicals[numbers[6]]
    try:
        return f"done {logical_text(m.update_chs(l, t.cylinders, t.heads, t.sectors))}"
    except Refusal as r:
        return f"refused {r.number} {logical_text(l)}"


def push(s, *numbers):
    t, number = m.push(handed_in(s.x, *numbers[:6]), *numbers[6:])
    return f"{number} {table_text(t)}"


def push_all(s, *numbers):
    """As push, with the table after a refusal too."""
    t = handed_in(s.x, *numbers[:6])
    try:
        t, number = m.push(t, *numbers[6:])
    except Refusal as r:
        return f"refused {r.number} {table_text(t)}"
    return f"{number} {table_text(t)}"


def new_from(s, *disk):
    return table_text(m.new_from(s.x, bytes(disk)))


def update_from(s, *numbers):
    """The last bytes of X, so many, are the second extract; the table is read from what is before."""
    end = max(0, len(s.x) - numbers[6])
    return changed(m.update_from, handed_in(s.x[:end], *numbers[:6]), s.x[end:])


# ---------------------------------------------------------------- free runs and places


def free(s, *numbers):
    """How many runs there are, then start and length of each."""
    runs = m.free_runs(handed_in(s.x, *numbers))
    return " ".join(str(n) for n in [len(runs), *(n for run in runs for n in run)])


def first_place(s, *numbers):
    return none_or(m.find_first_place(handed_in(s.x, *numbers[:6]), numbers[6]))


def last_place(s, *numbers):
    return none_or(m.find_last_place(handed_in(s.x, *numbers[:6]), numbers[6]))


def best_place(s, *numbers):
    return none_or(m.find_optimal_place(handed_in(s.x, *numbers[:6]), numbers[6]))


def most(s, *numbers):
    return str(m.get_maximum_partition_size(handed_in(s.x, *numbers)))


def most_for(s, *numbers):
    return str(m.get_maximum_partition_size_for(handed_in(s.x, *numbers[:6]), numbers[6]))


# ---------------------------------------------------------------- the two forms that take a reference


def free_into(s, *numbers):
    """Thirty equal runs are lent: the answer, then start and length of each afterwards."""
    t = handed_in(s.x, *numbers[:6])
    lent = [tuple(numbers[6:8])] * 30
    try:
        runs = [tuple(run) for run in m.free_runs(t)]
        said, lent = str(len(runs)), runs + lent[len(runs):]
    except Refusal as r:
        said = f"refused {r.number}"
    return " ".join([said, *(str(n) for run in lent for n in run)])


def update_lent(s, *numbers):
    """The logical partition of a place from 0 on is lent: the answer, then the partition afterwards."""
    return update_chs(s, *numbers)


# ---------------------------------------------------------------- writing


ENTRY_FIELDS = {1: "boot", 2: "sys", 3: "starting_lba", 4: "sectors"}


def edited_entry(e, name, value):
    return replace(e, **{ENTRY_FIELDS[name]: value})


def edited_logical(l, name, value):
    if name in ENTRY_FIELDS:
        return replace(l, partition=edited_entry(l.partition, name, value))
    return replace(l, **{5: {"absolute_ebr_lba": value}, 6: {"ebr_sectors": value}, 7: {"ebr_sectors": None},
                         8: {"ebr_last_chs": None}, 9: {"ebr_last_chs": l.ebr_first_chs}}[name])


def edited(t, number, name, value):
    """One edit: a partition's number (0 is the header's signature), a field and its value. Field 0 edits nothing."""
    if name == 0:
        return t
    if number == 0:
        return replace(t, header=replace(t.header, boot_signature=bytes([value % 256, value // 256])))
    if number < 5:
        return m.with_primary(t, number, edited_entry(t.header.entries[number - 1], name, value))
    logicals = list(t.logicals)
    logicals[number - 5] = edited_logical(logicals[number - 5], name, value)
    return replace(t, logicals=tuple(logicals))


def edited_in(s, numbers):
    """The table and the old extract. The last bytes of X, so many, are the old extract; the table is read from what is
    before, and up to four edits follow."""
    end = max(0, len(s.x) - numbers[6])
    t = handed_in(s.x[:end], *numbers[:6])
    edits = numbers[7:]
    if len(edits) % 3 or len(edits) > 12:
        raise ValueError("an edit is three numbers, and there are at most four")
    for at in range(0, len(edits), 3):
        t = edited(t, *edits[at:at + 3])
    return t, s.x[end:]


def write_table(s, *numbers):
    """What the call says, O, and the table, refused or not."""
    t, old = edited_in(s, numbers)
    after = t

    def written():
        nonlocal after
        after, length = m.write_table(t, old, s.o)
        return length

    said = lent_out(s, written)
    return f"{said} {table_text(after)}"


def write_header(s, *numbers):
    t, old = edited_in(s, numbers)
    return lent_out(s, lambda: m.write_header_only(t.header, old, s.o))


def read_o(s, length):
    """The table that the first bytes of O, so many, read as."""
    return table_text(m.read_table(bytes(s.o[:length])))


# ---------------------------------------------------------------- careful changes


def careful_push(s, align, cylinders, heads, sectors, *request):
    """The number of stores, which are in O."""
    geometry = m.Geometry(cylinders, heads, sectors)
    return lent_out(s, lambda: len(m.careful_push(s.x, align, geometry, *request, s.o).stores))


def careful_remove(s, number):
    return lent_out(s, lambda: len(m.careful_removal(s.x, number, s.o).stores))


CHANGES = {f.__name__: f for f in (x, xp, o)}
COMMANDS = {f.__name__: f for f in (
    chs_new, chs_empty, chs_exact, chs_aligned, chs_to_lba, chs_is_empty, chs_is_valid, chs_to_bytes, chs_of_bytes,
    entry_boot, entry_empty, entry_is,
    mbr_new, mbr_get, mbr_extended, mbr_copy, mbr_read, mbr_write, mbr_again,
    ebr_read, ebr_write, ebr_again,
    extract_check, extract_find, extract_place, extract_lay,
    read, read_header, wanted,
    get, find, remove, remove_at, check_geometry, cylinder_size, update_chs, push, push_all, new_from, update_from,
    free, first_place, last_place, best_place, most, most_for,
    free_into, update_lent, write_table, write_header, read_o, careful_push, careful_remove)}
COMMANDS["len"] = len_


def answers(text):
    s = State()
    for line in text.splitlines():
        word, *args = line.split(" ")
        if word == "#":
            continue
        if word in CHANGES:
            CHANGES[word](s, *args)
            continue
        try:
            said = COMMANDS[word](s, *map(int, args))
        except Refusal as r:
            said = f"refused {r.number}"
        yield f"{word} {said}"


if __name__ == "__main__":
    for said in answers(sys.stdin.read()):
        print(said)
