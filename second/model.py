"""Document 01, changed as requests 2 and 3 of document 02 ask, as a plain program in exact integers.

Written from the documents and the crate's source alone; it shares nothing with the proved
crates or their definitions. A refusal is the exception Refusal with document 01's number.
Tables are values that never change, so a refusal leaves the given table as it was; lent
output is a bytearray that is written only once nothing can be refused any more.
"""
from dataclasses import dataclass, field, replace
from typing import Dict, List, NamedTuple, Optional, Tuple

LOGICALS = 24  # logical partitions of a table
RECORDS = 64  # records of an extract
RUNS = LOGICALS + 6  # runs of a lent list
STORE = 4 + 512  # bytes of a store: its LBA and a record
STORES = 2 * STORE  # bytes of the lent output of a careful change

SECTOR_SIZES = (512, 1024, 2048, 4096)
SIGNATURE = b"\x55\xaa"
BOOT_ACTIVE = 0x80
BOOT_INACTIVE = 0x00
DEFAULT_ALIGN = 2048
MAX_ALIGN = 16384
EXTENDED_TYPES = (0x05, 0x0F, 0x85, 0xC5, 0xD5)


class Refusal(Exception):
    def __init__(self, number: int):
        super().__init__(number)
        self.number = number


def u32(n: int) -> int:
    """A step of the crate's arithmetic: its result must be a u32."""
    if n < 0 or n > 0xFFFFFFFF:
        raise Refusal(7)
    return n


def divided(n: int, by: int) -> int:
    if by == 0:
        raise Refusal(7)
    return n // by


def little(b: bytes) -> int:
    return int.from_bytes(b, "little")


def four(n: int) -> bytes:
    return n.to_bytes(4, "little")


# ---------------------------------------------------------------- CHS


@dataclass(frozen=True)
class CHS:
    cylinder: int
    head: int
    sector: int


NO_CHS = CHS(0, 0, 0)


def within_disk(cylinder: int, cylinders: int) -> int:
    if cylinder > 1023:
        raise Refusal(13)
    if cylinder > cylinders:
        raise Refusal(14)
    return cylinder


def from_lba_exact(lba: int, cylinders: int, heads: int, sectors: int) -> CHS:
    size = heads * sectors
    cylinder = divided(lba, size)
    rest = lba % size
    return CHS(within_disk(cylinder, cylinders), rest // sectors, rest % sectors + 1)


def from_lba_aligned(lba: int, cylinders: int, heads: int, sectors: int) -> CHS:
    cylinder = divided(u32(lba - 1), heads * sectors) + 1
    return CHS(within_disk(cylinder, cylinders), 0, 1)


def to_lba(c: CHS, heads: int, sectors: int) -> int:
    return u32(u32(c.cylinder * heads * sectors + c.head * sectors + c.sector) - 1)


def chs_is_empty(c: CHS) -> bool:
    return c == NO_CHS


def chs_is_valid(c: CHS, cylinders: int, heads: int, sectors: int) -> bool:
    return 0 < c.sector <= sectors and c.head < heads and c.cylinder < cylinders


def chs_bytes(c: CHS) -> bytes:
    return bytes([c.head, c.cylinder // 256 % 4 * 64 + c.sector % 64, c.cylinder % 256])


def chs_of_bytes(b: bytes) -> CHS:
    return CHS(b[1] // 64 * 256 + b[2], b[0], b[1] % 64)


# ---------------------------------------------------------------- entries and records


@dataclass(frozen=True)
class Entry:
    boot: int = 0
    first_chs: CHS = NO_CHS
    sys: int = 0
    last_chs: CHS = NO_CHS
    starting_lba: int = 0
    sectors: int = 0

    @property
    def end(self) -> int:
        """The sector after the last one, in whole numbers."""
        return self.starting_lba + self.sectors


NO_ENTRY = Entry()


def is_used(e: Entry) -> bool:
    return e.sys != 0


def is_extended(e: Entry) -> bool:
    return e.sys in EXTENDED_TYPES


def is_active(e: Entry) -> bool:
    return e.boot == BOOT_ACTIVE


def check_flags(*entries: Entry) -> None:
    for e in entries:
        if e.boot not in (BOOT_ACTIVE, BOOT_INACTIVE):
            raise Refusal(4)


def entry_bytes(e: Entry) -> bytes:
    return (bytes([e.boot]) + chs_bytes(e.first_chs) + bytes([e.sys]) + chs_bytes(e.last_chs)
            + four(e.starting_lba) + four(e.sectors))


def entry_of_bytes(b: bytes) -> Entry:
    return Entry(b[0], chs_of_bytes(b[1:4]), b[4], chs_of_bytes(b[5:8]), little(b[8:12]), little(b[12:16]))


@dataclass(frozen=True)
class Header:
    """The MBR record."""
    bootstrap_code: bytes
    disk_signature: bytes
    copy_protected: bytes
    entries: Tuple[Entry, Entry, Entry, Entry]
    boot_signature: bytes

    def extended(self) -> Optional[Entry]:
        """The first extended primary entry, which alone counts."""
        for e in self.entries:
            if is_extended(e):
                return e
        return None


def header_new(disk_signature: bytes) -> Header:
    return Header(bytes(440), disk_signature, bytes(2), (NO_ENTRY,) * 4, SIGNATURE)


def header_get(h: Header, number: int) -> Optional[Entry]:
    return h.entries[number - 1] if 1 <= number <= 4 else None


def copy_mark(h: Header) -> str:
    return {b"\x00\x00": "no", b"\x5a\x5a": "yes"}.get(h.copy_protected, "neither")


def check_header(h: Header) -> None:
    if h.boot_signature != SIGNATURE:
        raise Refusal(3)
    check_flags(*h.entries)


def header_bytes(h: Header) -> bytes:
    return (h.bootstrap_code + h.disk_signature + h.copy_protected
            + b"".join(entry_bytes(e) for e in h.entries) + h.boot_signature)


def header_read(record: bytes) -> Header:
    if len(record) != 512:
        raise Refusal(1)
    h = Header(record[:440], record[440:444], record[444:446],
               tuple(entry_of_bytes(record[at:at + 16]) for at in (446, 462, 478, 494)), record[510:])
    check_header(h)
    return h


def header_write(h: Header, out: bytearray) -> None:
    check_header(h)
    if len(out) < 512:
        raise Refusal(19)
    out[:512] = header_bytes(h)


NO_MARK = bytes(32)


@dataclass(frozen=True)
class EBR:
    bootstrap_code: bytes
    partition: Entry
    link: Entry
    mark: bytes = NO_MARK  # the 32 bytes behind the entries


def ebr_bytes(e: EBR) -> bytes:
    return e.bootstrap_code + entry_bytes(e.partition) + entry_bytes(e.link) + e.mark + SIGNATURE


def unmarked(e: EBR) -> EBR:
    """The EBR as the plain writer writes it."""
    return replace(e, mark=NO_MARK)


def ebr_read(record: bytes) -> EBR:
    if len(record) != 512:
        raise Refusal(1)
    if record[510:] != SIGNATURE:
        raise Refusal(3)
    e = EBR(record[:446], entry_of_bytes(record[446:462]), entry_of_bytes(record[462:478]), record[478:510])
    check_flags(e.partition, e.link)
    return e


def ebr_write(e: EBR, out: bytearray) -> None:
    check_flags(e.partition, e.link)
    if len(out) < 512:
        raise Refusal(19)
    out[:512] = ebr_bytes(unmarked(e))


# ---------------------------------------------------------------- the extract


@dataclass
class Disk:
    """The disk that an extract stands for. Every sector that is looked at is noted."""
    sector_size: int
    disk_size: int
    records: Dict[int, bytes]
    looked: List[int] = field(default_factory=list)

    def look(self, lba: int) -> bytes:
        if lba >= self.disk_size:
            raise Refusal(2)
        self.looked.append(lba)
        return self.records.get(lba, bytes(512))


def extract_disk(x: bytes) -> Disk:
    """The extract's rules, and the disk that a good one stands for."""
    if len(x) < 24:
        raise Refusal(1)
    size, disk_size, n, list_at, records_at, total = (little(x[at:at + 4]) for at in range(0, 24, 4))
    if size not in SECTOR_SIZES or n > RECORDS:
        raise Refusal(1)
    if list_at != 24 or records_at != 24 + 4 * n:
        raise Refusal(1)
    if total != 24 + 516 * n or total != len(x):
        raise Refusal(1)
    lbas = [little(x[list_at + 4 * i:list_at + 4 * i + 4]) for i in range(n)]
    for i, lba in enumerate(lbas):
        if lba >= disk_size or (i > 0 and lba <= lbas[i - 1]):
            raise Refusal(1)
    return Disk(size, disk_size, {
        lba: bytes(x[records_at + 512 * i:records_at + 512 * i + 512]) for i, lba in enumerate(lbas)})


def extract_bytes(disk: Disk) -> bytes:
    lbas = sorted(disk.records)
    n = len(lbas)
    head = (disk.sector_size, disk.disk_size, n, 24, 24 + 4 * n, 24 + 516 * n)
    return (b"".join(four(v) for v in head) + b"".join(four(lba) for lba in lbas)
            + b"".join(disk.records[lba] for lba in lbas))


def lookup_says(x: bytes, lba: int) -> int:
    """0, 1, or 2 (at or past D)."""
    try:
        extract_disk(x).look(lba)
    except Refusal as r:
        return r.number
    return 0


def lookup(x: bytes, lba: int) -> bytes:
    """The record's part of the extract; the empty part if absent or refused."""
    try:
        return extract_disk(x).records.get(lba, b"")
    except Refusal:
        return b""


def byte_place(sector_size: int, lba: int) -> int:
    """Where an LBA starts on the disk, in bytes."""
    if sector_size not in SECTOR_SIZES:
        raise Refusal(1)
    return sector_size * lba


def lay_records(disk: Disk, records: List[Tuple[int, bytes]], out: bytearray) -> int:
    """The extract with these records laid over in order, written to out: 22, 19. The new length."""
    new = dict(disk.records)
    for lba, record in records:
        new[lba] = record
    if len(new) > RECORDS:
        raise Refusal(22)
    made = extract_bytes(Disk(disk.sector_size, disk.disk_size, new))
    if len(out) < len(made):
        raise Refusal(19)
    out[:len(made)] = made
    return len(made)


def lay_over(x: bytes, lba: int, record: bytes, out: bytearray) -> int:
    disk = extract_disk(x)
    if len(record) != 512:
        raise Refusal(1)
    if lba >= disk.disk_size:
        raise Refusal(2)
    return lay_records(disk, [(lba, record)], out)


# ---------------------------------------------------------------- the table


@dataclass(frozen=True)
class Logical:
    partition: Entry
    absolute_ebr_lba: int
    ebr_sectors: Optional[int]
    ebr_first_chs: CHS
    ebr_last_chs: Optional[CHS]
    bootstrap_code: bytes
    mark: bytes = NO_MARK


NO_LOGICAL = Logical(NO_ENTRY, 0, None, NO_CHS, None, bytes(446))


@dataclass(frozen=True)
class Table:
    sector_size: int
    header: Header
    logicals: Tuple[Logical, ...]
    align: int
    cylinders: int
    heads: int
    sectors: int
    disk_size: int


def check_count(t: Table) -> None:
    """A table handed in with a count over LOGICALS, tested first."""
    if len(t.logicals) > LOGICALS:
        raise Refusal(6)


# ---------------------------------------------------------------- reading


def read_header(disk: Disk) -> Header:
    return header_read(disk.look(0))


def read_chain(disk: Disk, extended: Entry) -> Tuple[Logical, ...]:
    found: List[Logical] = []
    relative = 0
    link: Optional[Entry] = None
    while True:
        place = extended.starting_lba + relative
        try:
            ebr = ebr_read(disk.look(place))
        except Refusal:
            if link is None:
                return ()
            raise
        if len(found) == LOGICALS:
            raise Refusal(6)
        start = u32(ebr.partition.starting_lba + place)
        found.append(Logical(
            partition=replace(ebr.partition, starting_lba=start),
            absolute_ebr_lba=place,
            ebr_sectors=link.sectors if link else None,
            ebr_first_chs=link.first_chs if link else extended.first_chs,
            ebr_last_chs=link.last_chs if link else None,
            bootstrap_code=ebr.bootstrap_code,
            mark=ebr.mark))
        link = ebr.link
        if link.starting_lba == 0:
            return tuple(found)
        if link.starting_lba <= relative:
            raise Refusal(5)
        relative = link.starting_lba


def find_alignment(starts: List[int]) -> int:
    """The alignment of the used starts: of the numbers from 1 on, the largest that divides each of them."""
    if not starts:
        return DEFAULT_ALIGN
    if starts == [1]:
        return 1
    divisors = range(1, min(MAX_ALIGN, max(starts)) + 1)
    for start in starts:
        divisors = [k for k in divisors if start % k == 0]
    if not divisors:
        raise Refusal(7)
    return divisors[-1]


def all_entries(header: Header, logicals: Tuple[Logical, ...]) -> List[Entry]:
    return list(header.entries) + [l.partition for l in logicals]


def read_disk(disk: Disk) -> Table:
    header = read_header(disk)
    extended = header.extended()
    logicals = read_chain(disk, extended) if extended else ()
    align = find_alignment([e.starting_lba for e in all_entries(header, logicals) if is_used(e)])
    return Table(disk.sector_size, header, logicals, align, 0, 0, 0, disk.disk_size)


def read_table(x: bytes) -> Table:
    return read_disk(extract_disk(x))


def wanted(x: bytes) -> Optional[int]:
    """The first sector, in reading order, that reading looks at and the extract has no record for."""
    disk = extract_disk(x)
    try:
        read_disk(disk)
    except Refusal:
        pass
    for lba in disk.looked:
        if lba not in disk.records:
            return lba
    return None


def read_header_only(x: bytes) -> Header:
    return read_header(extract_disk(x))


def write_header_only(h: Header, x: bytes, out: bytearray) -> int:
    disk = extract_disk(x)
    check_header(h)
    if disk.disk_size == 0:
        raise Refusal(2)
    return lay_records(disk, [(0, header_bytes(h))], out)


# ---------------------------------------------------------------- lookup and small changes


def table_get(t: Table, number: int) -> Optional[Entry]:
    check_count(t)
    entries = all_entries(t.header, t.logicals)
    return entries[number - 1] if 1 <= number <= len(entries) else None


def table_len(t: Table) -> int:
    check_count(t)
    return 4 + len(t.logicals)


def lies_in(sector: int, e: Entry) -> bool:
    """The sum is formed, and can refuse, only if the sector is not before the start."""
    return is_used(e) and sector >= e.starting_lba and sector < u32(e.starting_lba + e.sectors)


def find_at_sector(t: Table, sector: int) -> Optional[int]:
    check_count(t)
    for number, e in enumerate(t.header.entries, 1):
        if lies_in(sector, e):
            if not is_extended(e):
                return number
            for other, l in enumerate(t.logicals, 5):
                if lies_in(sector, l.partition):
                    return other
            return None
    return None


class Removed(NamedTuple):
    table: Table
    partition: Logical


def remove(t: Table, number: int) -> Removed:
    check_count(t)
    at = number - 5
    if at < 0 or at >= len(t.logicals):
        raise Refusal(17)
    return Removed(replace(t, logicals=t.logicals[:at] + t.logicals[at + 1:]), t.logicals[at])


def with_primary(t: Table, number: int, e: Entry) -> Table:
    entries = list(t.header.entries)
    entries[number - 1] = e
    return replace(t, header=replace(t.header, entries=tuple(entries)))


def remove_at_sector(t: Table, sector: int) -> Table:
    number = find_at_sector(t, sector)
    if number is None:
        raise Refusal(15)
    if number >= 5:
        return remove(t, number).table
    return with_primary(t, number, NO_ENTRY)


def new_from(x: bytes, disk_signature: bytes) -> Table:
    disk = extract_disk(x)
    return Table(disk.sector_size, header_new(disk_signature), (), DEFAULT_ALIGN, 0, 0, 0, disk.disk_size)


def update_from(t: Table, x: bytes) -> Table:
    check_count(t)
    disk = extract_disk(x)
    return replace(t, sector_size=disk.sector_size, disk_size=disk.disk_size)


def last_sector(start: int, sectors: int) -> int:
    return u32(u32(start + sectors) - 1)


def update_chs(l: Logical, cylinders: int, heads: int, sectors: int) -> Logical:
    def place(lba: int) -> CHS:
        return from_lba_exact(lba, cylinders, heads, sectors)

    first = place(l.partition.starting_lba)
    last = place(last_sector(l.partition.starting_lba, l.partition.sectors))
    ebr_first = place(l.absolute_ebr_lba)
    ebr_last = None
    if l.ebr_sectors is not None:
        ebr_last = place(last_sector(l.absolute_ebr_lba, l.ebr_sectors))
    return replace(l, partition=replace(l.partition, first_chs=first, last_chs=last),
                   ebr_first_chs=ebr_first, ebr_last_chs=ebr_last)


def check_geometry(t: Table) -> bool:
    check_count(t)
    return 0 < t.cylinders <= 1023 and t.heads > 0 and 0 < t.sectors <= 63


def get_cylinder_size(t: Table) -> int:
    check_count(t)
    return t.heads * t.sectors


# ---------------------------------------------------------------- free runs


class Run(NamedTuple):
    start: int
    length: int


def rounded_up(n: int, align: int) -> int:
    return u32((divided(u32(n - 1), align) + 1) * align)


def runs_between(positions: List[int], align: int) -> List[Run]:
    positions = sorted(positions)
    runs = []
    for a, b in zip(positions[0::2], positions[1::2]):
        start, length = u32(a + 1), u32(b - a - 1)
        if length == 0:
            continue
        aligned = rounded_up(start, align)
        if length > aligned - start:
            runs.append(Run(aligned, length - (aligned - start)))
    return runs


def free_runs(t: Table) -> List[Run]:
    check_count(t)
    if t.align == 0:
        raise Refusal(7)
    positions = [0]
    for e in t.header.entries:
        if is_used(e):
            positions += [e.starting_lba, last_sector(e.starting_lba, e.sectors)]
    runs = runs_between(positions + [t.disk_size], t.align)
    extended = t.header.extended()
    if extended:
        positions = [extended.starting_lba]
        for l in t.logicals:
            if is_used(l.partition):
                # the crate adds the EBR place to a start that is absolute already
                start = u32(l.absolute_ebr_lba + l.partition.starting_lba)
                positions += [start, last_sector(start, l.partition.sectors)]
        end = u32(extended.starting_lba + extended.sectors)
        runs += runs_between(positions + [end], t.align)
    return runs


def free_runs_into(t: Table, lent: int) -> List[Run]:
    """The runs that are put into a lent list of this many."""
    runs = free_runs(t)
    if lent < RUNS:
        raise Refusal(19)
    return runs


def find_first_place(t: Table, size: int) -> Optional[int]:
    fitting = [r for r in free_runs(t) if r.length >= size]
    return fitting[0].start if fitting else None


def find_last_place(t: Table, size: int) -> Optional[int]:
    fitting = [r for r in free_runs(t) if r.length >= size]
    if not fitting:
        return None
    return u32(fitting[-1].start + fitting[-1].length - size) // t.align * t.align


def find_optimal_place(t: Table, size: int) -> Optional[int]:
    fitting = [r for r in free_runs(t) if r.length >= size]
    return min(fitting, key=lambda r: r.length).start if fitting else None


def get_maximum_partition_size(t: Table) -> int:
    sizes = [r.length // t.align * t.align for r in free_runs(t)]
    if not sizes:
        raise Refusal(16)
    return max(sizes)


def get_maximum_partition_size_for(t: Table, number: int) -> int:
    runs = free_runs(t)
    e = table_get(t, number)
    if e is None:
        raise Refusal(15)
    more = 0
    for run in runs:
        if run.start == u32(e.starting_lba + e.sectors):
            more = run.length
            break
    return u32(e.sectors + more)


# ---------------------------------------------------------------- push


class Pushed(NamedTuple):
    table: Table
    number: int


def push(t: Table, sys: int, start: int, sectors: int) -> Pushed:
    check_count(t)
    extended = t.header.extended()
    if extended is None:
        raise Refusal(8)
    start = rounded_up(start, t.align)
    sectors = rounded_up(sectors, t.align)
    double = u32(2 * t.align)
    if sectors < double:
        raise Refusal(9)
    partition_start = u32(start + t.align)
    if start < extended.starting_lba:
        raise Refusal(10)
    if start > u32(u32(extended.starting_lba + extended.sectors) - double):
        raise Refusal(11)
    later = len(t.logicals) > 0
    if later and last_sector(start, sectors) > extended.end - 1:
        raise Refusal(12)
    new = Logical(
        partition=Entry(BOOT_INACTIVE, NO_CHS, sys, NO_CHS, partition_start, sectors - t.align),
        absolute_ebr_lba=start,
        ebr_sectors=sectors if later else None,
        ebr_first_chs=NO_CHS,
        ebr_last_chs=NO_CHS if later else None,
        bootstrap_code=bytes(446),
        mark=NO_MARK)
    if check_geometry(t):
        new = update_chs(new, t.cylinders, t.heads, t.sectors)
    if len(t.logicals) == LOGICALS:
        raise Refusal(6)
    return Pushed(replace(t, logicals=t.logicals + (new,)), 5 + len(t.logicals))


# ---------------------------------------------------------------- writing


def link_to(l: Logical, extended: Entry) -> Entry:
    """The link that leads to a later logical partition: 18 where its link fields are missing."""
    if l.ebr_sectors is None or l.ebr_last_chs is None:
        raise Refusal(18)
    return Entry(BOOT_INACTIVE, l.ebr_first_chs, extended.sys, l.ebr_last_chs,
                 max(l.absolute_ebr_lba - extended.starting_lba, 0), l.ebr_sectors)


def ebr_of(l: Logical, following: Optional[Logical], extended: Entry) -> EBR:
    """The EBR of a logical partition, with its mark and its link to the following one, or its end."""
    relative = max(l.partition.starting_lba - l.absolute_ebr_lba, 0)
    link = link_to(following, extended) if following else NO_ENTRY
    return EBR(l.bootstrap_code, replace(l.partition, starting_lba=relative), link, l.mark)


class Written(NamedTuple):
    table: Table
    length: int


def write_table(t: Table, x: bytes, out: bytearray) -> Written:
    check_count(t)
    disk = extract_disk(x)
    check_header(t.header)
    if disk.disk_size == 0:
        raise Refusal(2)
    records = [(0, header_bytes(t.header))]
    extended = t.header.extended()
    if extended:
        logicals = list(t.logicals)
        if logicals:
            logicals[0] = replace(logicals[0], absolute_ebr_lba=extended.starting_lba,
                                  ebr_sectors=None, ebr_last_chs=None)
        if check_geometry(t):
            logicals = [update_chs(l, t.cylinders, t.heads, t.sectors) for l in logicals]
        t = replace(t, logicals=tuple(logicals))
        for l, following in zip(logicals, logicals[1:] + [None]):
            check_flags(l.partition)
            if l.absolute_ebr_lba >= disk.disk_size:
                raise Refusal(2)
            records.append((l.absolute_ebr_lba, ebr_bytes(unmarked(ebr_of(l, following, extended)))))
    return Written(t, lay_records(disk, records, out))


# ---------------------------------------------------------------- sound


def chs_holds(c: CHS) -> bool:
    return c.cylinder <= 1023 and c.sector <= 63


def all_chs(t: Table) -> List[CHS]:
    found = []
    for e in all_entries(t.header, t.logicals):
        found += [e.first_chs, e.last_chs]
    for l in t.logicals:
        found.append(l.ebr_first_chs)
        if l.ebr_last_chs is not None:
            found.append(l.ebr_last_chs)
    return found


def is_empty_first(logicals: Tuple[Logical, ...], at: int) -> bool:
    """Request 3: is the logical partition at this index the first one, and empty: type 0, relative start 0, no sectors?"""
    l = logicals[at]
    return at == 0 and not is_used(l.partition) and l.partition.starting_lba == l.absolute_ebr_lba and l.partition.sectors == 0


def end_of(logicals: Tuple[Logical, ...], at: int) -> int:
    """Where the logical partition at this index ends; the empty first one's EBR counts as its one sector."""
    l = logicals[at]
    return l.absolute_ebr_lba + 1 if is_empty_first(logicals, at) else l.partition.end


def broken_rules(t: Table) -> List[str]:
    """The rules of a sound table that this one breaks, in document 01's order."""
    check_count(t)
    header, logicals = t.header, t.logicals
    # those that have a size and a place
    sized = [l for at, l in enumerate(logicals) if not is_empty_first(logicals, at)]
    primaries = [e for e in header.entries if is_used(e)]
    extended = header.extended()
    x = extended.starting_lba if extended else 0
    x_end = extended.end if extended else 0
    pairs = list(zip(logicals, logicals[1:]))
    limits = [l.absolute_ebr_lba for l in logicals[1:]] + [x_end]
    rules = [
        ("signature", header.boot_signature == SIGNATURE),
        ("flag", all(e.boot in (BOOT_ACTIVE, BOOT_INACTIVE) for e in all_entries(header, logicals))),
        ("chs", all(chs_holds(c) for c in all_chs(t))),
        ("primary start", all(e.starting_lba >= 1 for e in primaries)),
        ("primary sectors", all(e.sectors >= 1 for e in primaries)),
        ("primary end", all(e.end <= t.disk_size for e in primaries)),
        ("overlap", all(a.end <= b.starting_lba or b.end <= a.starting_lba
                        for i, a in enumerate(primaries) for b in primaries[i + 1:])),
        ("one extended", sum(is_extended(e) for e in primaries) <= 1),
        ("no extended", extended is not None or not logicals),
        ("logical used", all(is_used(l.partition) for l in sized)),
        ("logical extended", not any(is_extended(l.partition) for l in logicals)),
        ("logical sectors", all(l.partition.sectors >= 1 for l in sized)),
        ("logical start", all(l.partition.starting_lba > l.absolute_ebr_lba for l in sized)),
        ("logical end", all(end_of(logicals, at) <= limits[at] for at in range(len(logicals)))),
        ("first ebr", not logicals or logicals[0].absolute_ebr_lba == x),
        ("ascend", all(a.absolute_ebr_lba < b.absolute_ebr_lba for a, b in pairs)),
        ("link sectors", all((l.ebr_sectors or 0) >= 1 for l in logicals[1:])),
        ("link end", all(l.absolute_ebr_lba + (l.ebr_sectors or 0) <= x_end for l in logicals[1:])),
        ("link covers", all(l.partition.end <= l.absolute_ebr_lba + (l.ebr_sectors or 0)
                            for l in logicals[1:])),
    ]
    return [name for name, holds in rules if not holds]


def sound(t: Table) -> bool:
    return not broken_rules(t)


# ---------------------------------------------------------------- careful changes


class Geometry(NamedTuple):
    cylinders: int
    heads: int
    sectors: int


class Careful(NamedTuple):
    table: Table  # the table after the change
    stores: List[Tuple[int, bytes]]


def first_placed(t: Table) -> Table:
    """The first-place rule."""
    if not t.logicals:
        return t
    extended = t.header.extended()
    first = replace(t.logicals[0], absolute_ebr_lba=extended.starting_lba, ebr_sectors=None,
                    ebr_first_chs=extended.first_chs, ebr_last_chs=None)
    return replace(t, logicals=(first,) + t.logicals[1:])


def record_at(t: Table, at: int) -> Tuple[int, bytes]:
    """The store of the EBR of the logical partition at this index."""
    l = t.logicals[at]
    following = t.logicals[at + 1] if at + 1 < len(t.logicals) else None
    return l.absolute_ebr_lba, ebr_bytes(ebr_of(l, following, t.header.extended()))


def put_stores(stores: List[Tuple[int, bytes]], out: bytearray) -> None:
    if len(out) < STORES:
        raise Refusal(19)
    made = b"".join(four(lba) + record for lba, record in stores)
    out[:len(made)] = made


def place_in_order(logicals: Tuple[Logical, ...], new: Logical) -> int:
    """Request 2: the index that a new logical partition gets; so many EBRs are at or below its own."""
    return sum(l.absolute_ebr_lba <= new.absolute_ebr_lba for l in logicals)


def in_gap(logicals: Tuple[Logical, ...], at: int, new: Logical) -> bool:
    """Does a new one at this index start at or after the end of the one before it, and end by the EBR of the one behind?"""
    starts = at > 0 and end_of(logicals, at - 1) <= new.absolute_ebr_lba
    ends = at == len(logicals) or new.partition.end <= logicals[at].absolute_ebr_lba
    return starts and ends


def moved(t: Table, at: int) -> Table:
    """The table with its last logical partition taken out and put in at this index."""
    *others, last = t.logicals
    return replace(t, logicals=(*others[:at], last, *others[at:]))


def careful_push(x: bytes, align: int, geometry: Geometry, sys: int, start: int, sectors: int,
                 out: bytearray) -> Careful:
    t = read_table(x)
    if not sound(t):
        raise Refusal(20)
    complete = 0 < geometry.cylinders <= 1023 and geometry.heads > 0
    if sys == 0 or sys in EXTENDED_TYPES or (complete and geometry.sectors > 63):
        raise Refusal(23)
    t = replace(t, align=align, cylinders=geometry.cylinders, heads=geometry.heads, sectors=geometry.sectors)
    after = push(t, sys, start, sectors).table
    new = after.logicals[-1]
    if not t.logicals and new.partition.end > t.header.extended().end:
        raise Refusal(12)
    at = place_in_order(t.logicals, new)
    if t.logicals and not in_gap(t.logicals, at, new):
        raise Refusal(21)
    after = first_placed(moved(after, at))
    stores = [record_at(after, at)]
    if at > 0:
        stores.append(record_at(after, at - 1))
    put_stores(stores, out)
    return Careful(after, stores)


def careful_removal(x: bytes, number: int, out: bytearray) -> Careful:
    t = read_table(x)
    if not sound(t):
        raise Refusal(20)
    after = first_placed(remove(t, number).table)
    at = number - 5
    if not after.logicals:
        stores = [(t.header.extended().starting_lba, bytes(512))]
    else:
        stores = [record_at(after, max(at - 1, 0))]
    put_stores(stores, out)
    return Careful(after, stores)


# ---------------------------------------------------------------- the listing


def listing(x: bytes) -> str:
    try:
        t = read_table(x)
    except Refusal as r:
        return f"refused {r.number}\n"
    lines = [f"disk {t.disk_size} align {t.align} logical {len(t.logicals)}"]
    for number, e in enumerate(all_entries(t.header, t.logicals), 1):
        if is_used(e):
            lines.append(f"{number} {e.sys:02X} {e.boot:02X} {e.starting_lba} {e.sectors}")
    return "".join(line + "\n" for line in lines)
