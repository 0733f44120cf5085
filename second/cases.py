"""Writes the fixed list of cases: python3 cases.py > cases

Hand-written limits first, then seeded ones; the list is the same at every run.
"""
import model as m
from model import CHS, Entry

BIG = 0xFFFFFFFF
MOST = m.LOGICALS  # logical partitions of a table
HIGHEST = 4 + MOST  # the number of the last one
RECORDS = m.RECORDS  # records of an extract
lines = []


class Seeded:
    """Numbers that are the same on every machine."""

    def __init__(self, seed):
        self.state = seed

    def below(self, n):
        self.state = (self.state * 6364136223846793005 + 1442695040888963407) % 2 ** 64
        return (self.state >> 20) % n

    def between(self, low, high):
        return low + self.below(high - low + 1)

    def of(self, choices):
        return choices[self.below(len(choices))]

    def bytes(self, n):
        return bytes(self.below(256) for _ in range(n))


def case(*words):
    lines.append(" ".join(w.hex() if isinstance(w, bytes) else str(w) for w in words))


def note(text):
    lines.append("# " + text)


def words_of(e):
    return (e.boot, e.first_chs.cylinder, e.first_chs.head, e.first_chs.sector, e.sys,
            e.last_chs.cylinder, e.last_chs.head, e.last_chs.sector, e.starting_lba, e.sectors)


def lend(record):
    """X becomes these bytes; runs of zeros are left out of the file."""
    case("x", len(record))
    at = 0
    for piece in bytes(record).split(bytes(8)):
        if piece.strip(b"\0"):
            case("xp", at, piece)
        at += len(piece) + 8


class Near:
    """X, changed where it differs from what was lent before."""

    def __init__(self):
        self.x = None

    def lend(self, x):
        x = bytes(x)
        if self.x is None or len(self.x) != len(x):
            lend(x)
        else:
            at = 0
            while at < len(x):
                if x[at] == self.x[at]:
                    at += 1
                    continue
                end = at + 1
                while end < len(x) and x[end:end + 8] != self.x[end:end + 8]:
                    end += 1
                case("xp", at, x[at:end])
                at = end
        self.x = x


def part(sys, start, sectors, boot=0):
    return Entry(boot, m.NO_CHS, sys, m.NO_CHS, start, sectors)


def seeded_chs(rng, narrow):
    if narrow:
        return CHS(rng.below(1024), rng.below(256), rng.below(64))
    return CHS(rng.below(65536), rng.below(256), rng.below(256))


def seeded_entry(rng, narrow=True, flags=(0, 0x80)):
    return Entry(rng.of(flags), seeded_chs(rng, narrow), rng.below(256), seeded_chs(rng, narrow),
                 rng.below(BIG + 1), rng.below(BIG + 1))


# ---------------------------------------------------------------- CHS


def chs_cases():
    note("CHS: the numbers to hold")
    for chs in ((0, 32, 33), (514, 3, 5), (1023, 254, 63)):
        case("chs_to_bytes", *chs)
    for text in ("202100", "038502", "feffff"):
        case("chs_of_bytes", *bytes.fromhex(text))
    for lba in (2048, 16450559, 16450560):
        case("chs_exact", lba, 1023, 255, 63)
    case("chs_is_valid", 1023, 254, 63, 1023, 255, 63)
    case("chs_exact", 60, 10, 2, 3)
    case("chs_exact", 66, 10, 2, 3)
    case("chs_aligned", 6, 10, 2, 3)
    case("chs_aligned", 7, 10, 2, 3)
    case("chs_aligned", 0, 10, 2, 3)
    case("chs_to_lba", 0, 0, 0, 255, 63)

    note("CHS: made and empty")
    for chs in ((0, 0, 0), (1, 2, 3), (1023, 254, 63), (1024, 255, 64), (65535, 255, 255)):
        case("chs_new", *chs)
    case("chs_empty")
    for chs in ((0, 0, 0), (1, 0, 0), (0, 1, 0), (0, 0, 1), (256, 0, 0), (65535, 255, 255)):
        case("chs_is_empty", *chs)

    note("CHS: exact, limits and the order 7, 13, 14")
    for lba in (0, 1, 5, 6, 59, 61, 65, 67, BIG - 1, BIG):
        case("chs_exact", lba, 10, 2, 3)
    for lba in (0, 62, 63, 16064, 16065, 16434494, 16434495, BIG):
        case("chs_exact", lba, 1023, 255, 63)
    for lba in (1023, 1024, 1025):
        for cylinders in (0, 1022, 1023, 1024, 65535):
            case("chs_exact", lba, cylinders, 1, 1)
    for geometry in ((0, 0, 0), (10, 0, 3), (10, 2, 0), (65535, 0, 255), (65535, 255, 0)):
        case("chs_exact", 0, *geometry)
        case("chs_exact", BIG, *geometry)
    for lba in (0, 65024, 65025, 66585599, 66585600, BIG):
        case("chs_exact", lba, 65535, 255, 255)
    case("chs_exact", 1, 0, 1, 1)
    case("chs_exact", 0, 0, 1, 1)

    note("CHS: aligned, limits and the order 7, 13, 14")
    for lba in (1, 5, 12, 13, 60, 61, 66, BIG):
        case("chs_aligned", lba, 10, 2, 3)
    for lba in (1, 1022, 1023, 1024, BIG):
        for cylinders in (0, 1022, 1023, 65535):
            case("chs_aligned", lba, cylinders, 1, 1)
    for lba in (0, 1):
        for geometry in ((0, 0, 0), (10, 0, 3), (10, 2, 0), (0, 2, 3)):
            case("chs_aligned", lba, *geometry)
    for lba in (16450560, 16434495, 16434496, BIG):
        case("chs_aligned", lba, 1023, 255, 63)
    for lba in (66520575, 66520576, BIG):
        case("chs_aligned", lba, 1023, 255, 255)

    note("CHS: back to a sector")
    for words in ((0, 0, 1, 255, 63), (0, 32, 33, 255, 63), (1023, 254, 63, 255, 63), (65535, 255, 255, 255, 255),
                  (9, 0, 0, 0, 63), (9, 5, 0, 255, 0), (9, 5, 1, 255, 0), (0, 1, 0, 255, 63), (0, 1, 0, 255, 0),
                  (1, 0, 0, 1, 1), (1, 0, 0, 255, 63), (0, 0, 255, 0, 0), (65535, 0, 0, 255, 255),
                  (65535, 255, 0, 0, 255), (10, 0, 1, 2, 3), (10, 1, 3, 2, 3)):
        case("chs_to_lba", *words)

    note("CHS: valid for a geometry")
    for words in ((0, 0, 1, 1, 1, 1), (0, 0, 0, 1, 1, 1), (0, 0, 2, 1, 1, 1), (0, 1, 1, 1, 1, 1), (1, 0, 1, 1, 1, 1),
                  (1022, 254, 63, 1023, 255, 63), (1022, 255, 63, 1023, 255, 63), (1022, 254, 64, 1023, 255, 63),
                  (0, 0, 1, 0, 1, 1), (0, 0, 1, 1, 0, 1), (0, 0, 1, 1, 1, 0), (65534, 254, 255, 65535, 255, 255),
                  (65535, 254, 255, 65535, 255, 255), (0, 255, 1, 1, 255, 1)):
        case("chs_is_valid", *words)

    note("CHS: the three bytes; higher bits are dropped")
    for chs in ((0, 0, 0), (255, 255, 63), (256, 0, 0), (511, 1, 1), (512, 1, 1), (768, 1, 1), (1024, 1, 64),
                (1023, 0, 64), (1280, 9, 65), (65535, 255, 255), (65280, 128, 192), (0, 0, 63), (0, 0, 128)):
        case("chs_to_bytes", *chs)
    for text in ("000000", "ffffff", "ff0000", "00ff00", "0000ff", "004000", "008000", "00c000", "003f00", "7fbf80"):
        case("chs_of_bytes", *bytes.fromhex(text))

    note("CHS: seeded")
    rng = Seeded(101)
    for _ in range(10):
        heads, sectors = rng.between(1, 255), rng.between(1, 255)
        cylinders = rng.of((rng.below(1024), rng.below(65536)))
        lba = rng.below(heads * sectors * 1100)
        case("chs_exact", lba, cylinders, heads, sectors)
        case("chs_aligned", lba, cylinders, heads, sectors)
    for _ in range(8):
        chs = seeded_chs(rng, False)
        words = (chs.cylinder, chs.head, chs.sector)
        case("chs_to_bytes", *words)
        case("chs_to_lba", *words, rng.below(256), rng.below(256))
        case("chs_is_valid", *words, rng.below(65536), rng.below(256), rng.below(256))
        case("chs_of_bytes", *rng.bytes(3))


# ---------------------------------------------------------------- entries


def entry_cases():
    note("entries: used, unused, extended, active")
    case("entry_boot")
    case("entry_empty")
    kinds = {0, 1, 0x83, 0xEE, 0xFF}
    for kind in m.EXTENDED_TYPES:
        kinds |= {kind, kind - 1, kind + 1} | {kind ^ 1 << bit for bit in range(8)}
    for kind in sorted(kinds):
        case("entry_is", *words_of(part(kind, 0, 0)))
    for boot in (1, 0x7F, 0x80, 0x81, 0xFF):
        case("entry_is", *words_of(part(0x83, 2048, 2048, boot)))
    case("entry_is", *words_of(part(0, BIG, BIG, 0x80)))
    case("entry_is", 0, 65535, 255, 255, 0, 65535, 255, 255, BIG, BIG)


# ---------------------------------------------------------------- the MBR record


def header_of(*entries, code=bytes(440), disk=bytes(4), copy=bytes(2), sign=m.SIGNATURE):
    return m.Header(code, disk, copy, tuple(entries) + (m.NO_ENTRY,) * (4 - len(entries)), sign)


def words_of_header(h):
    words = [*h.disk_signature, *h.copy_protected, *h.boot_signature]
    for e in h.entries:
        words += words_of(e)
    return words


def header_case(word, h, *more):
    """A case on a header: its code goes to X."""
    lend(h.bootstrap_code.rstrip(b"\0"))
    case(word, *words_of_header(h), *more)


DISK_K = header_of(part(0x05, 4096, 16384))


def mbr_cases():
    note("MBR: new, numbers, copy mark, the first extended entry")
    for disk in ((0, 0, 0, 0), (1, 2, 3, 4), (255, 255, 255, 255)):
        case("mbr_new", *disk)
    four = header_of(*(part(number, number * 1000, number * 100) for number in (1, 2, 3, 4)))
    for number in (0, 1, 2, 3, 4, 5, 6, 255, 256, 257, BIG, BIG + 2, 10 ** 17 + 1):
        case("mbr_get", *words_of_header(four), number)
    for mark in ("0000", "5a5a", "5a00", "005a", "a5a5", "5a5b", "5b5a", "ffff", "0100", "0001"):
        case("mbr_copy", *words_of_header(header_of(copy=bytes.fromhex(mark))))
    for kinds in ((0x83, 0x82), (0x05, 0x0F), (0x83, 0x85, 0x05), (0, 0, 0xC5, 0xD5), (1, 2, 3, 0xD5), (4, 6, 0x15, 0x04)):
        entries = (part(kind, 100 * number, 10) for number, kind in enumerate(kinds, 1))
        case("mbr_extended", *words_of_header(header_of(*entries)))
    case("mbr_extended", *words_of_header(header_of(part(0x0F, 7, 0, 0x33), sign=b"\0\0")))

    note("MBR: read, K's record 0 and the lengths")
    record = m.header_bytes(DISK_K)
    lend(record)
    case("mbr_read")
    for length in (0, 1, 510, 511, 513, 1024):
        lend((record + bytes(512))[:length])
        case("mbr_read")

    note("MBR: read, signature before flags, length before both")
    case("x", 512)
    case("mbr_read")
    for sign in ("55aa", "aa55", "5500", "00aa", "55ab", "54aa", "ffff"):
        case("xp", 510, sign)
        case("mbr_read")
    case("xp", 446, "01")
    case("mbr_read")
    case("xp", 510, "55aa")
    case("mbr_read")
    case("x", 511)
    case("xp", 446, "01")
    case("mbr_read")
    case("x", 512)
    case("xp", 510, "55aa")
    for at in (446, 462, 478, 494):
        for flag in ("01", "7f", "81", "ff", "80"):
            case("xp", at, flag)
            case("mbr_read")

    note("MBR: each field in its place")
    case("x", 512)
    case("xp", 510, "55aa")
    for at, text in ((0, "07"), (439, "07"), (440, "01"), (443, "02"), (444, "03"), (445, "04"), (447, "ffffff"),
                     (450, "83"), (451, "010203"), (454, "01020304"), (458, "05060708"), (461, "ff"), (463, "11"),
                     (509, "80")):
        case("xp", at, text)
        case("mbr_read")

    note("MBR: written, the lengths and the order 3, 4, 19")
    for length in (512, 513, 600, 511, 0):
        case("o", length, 238)
        header_case("mbr_write", DISK_K)
    bad_flag = DISK_K.entries[:3] + (part(0, 0, 0, 1),)
    for length in (512, 10):
        case("o", length, 17)
        for sign in ("55aa", "0000", "aa55", "55ab"):
            header_case("mbr_write", header_of(*DISK_K.entries, sign=bytes.fromhex(sign)))
            header_case("mbr_write", header_of(*bad_flag, sign=bytes.fromhex(sign)))
    for at in range(4):
        for flag in (0x7F, 0x81):
            entries = list(DISK_K.entries)
            entries[at] = part(0x83, 1, 1, flag)
            case("o", 512, 9)
            header_case("mbr_write", header_of(*entries))
    header_case("mbr_write", header_of(part(0x83, 1, 1, 0x80), part(0x83, 2, 1, 0x80)))

    note("MBR: seeded, read and written again")
    rng = Seeded(202)
    for _ in range(8):
        h = header_of(*(seeded_entry(rng) for _ in range(4)), code=rng.bytes(440), disk=rng.bytes(4),
                      copy=rng.bytes(2))
        lend(m.header_bytes(h))
        case("mbr_read")
        case("o", 520, 170)
        case("mbr_again")
    case("xp", 494, "08")
    case("mbr_again")
    for _ in range(6):
        h = header_of(*(seeded_entry(rng, narrow=False) for _ in range(4)), code=rng.bytes(40) + bytes(400),
                      disk=rng.bytes(4), copy=rng.bytes(2))
        case("o", 512, 1)
        header_case("mbr_write", h)


# ---------------------------------------------------------------- the EBR


def ebr_case(word, ebr):
    """A case on an EBR: its code and its mark go to X."""
    lend((ebr.bootstrap_code + ebr.mark).rstrip(b"\0"))
    case(word, *words_of(ebr.partition), *words_of(ebr.link))


FIRST_OF_K = m.EBR(bytes(446), part(0x83, 2048, 2048), m.NO_ENTRY)
LINKED = m.EBR(bytes(446), part(0x83, 2048, 2048), part(0x05, 4096, 4096))


def ebr_cases():
    note("EBR: read, K's record 4,096 and the lengths")
    record = m.ebr_bytes(FIRST_OF_K)
    lend(record)
    case("ebr_read")
    for length in (0, 1, 511, 513):
        lend((record + bytes(512))[:length])
        case("ebr_read")

    note("EBR: read, signature before flags, length before both")
    case("x", 512)
    case("ebr_read")
    for sign in ("55aa", "aa55", "5500", "00aa", "54aa"):
        case("xp", 510, sign)
        case("ebr_read")
    case("xp", 462, "01")
    case("ebr_read")
    case("xp", 510, "55aa")
    case("ebr_read")
    case("x", 513)
    case("xp", 446, "01")
    case("ebr_read")
    case("x", 512)
    case("xp", 510, "55aa")
    for at in (446, 462):
        for flag in ("01", "7f", "81", "ff", "80"):
            case("xp", at, flag)
            case("ebr_read")

    note("EBR: the mark is bytes 478 to 509, and written as zeros")
    case("xp", 478, "ff" * 32)
    case("ebr_read")
    case("o", 515, 51)
    case("ebr_again")
    case("xp", 478, bytes(32))
    for at in (477, 478, 479, 493, 494, 508, 509):
        case("xp", at, "a5")
        case("ebr_read")
        case("ebr_again")
        case("xp", at, "00")
    for at in (510, 511):
        case("xp", at, "a5")
        case("ebr_read")
        case("xp", 510, "55aa")

    note("EBR: each field in its place")
    case("x", 512)
    case("xp", 510, "55aa")
    for at, text in ((0, "07"), (445, "07"), (447, "ffffff"), (450, "05"), (451, "010203"), (454, "01020304"),
                     (458, "05060708"), (463, "feffff"), (466, "0f"), (467, "038502"), (470, "11121314"),
                     (474, "21222324"), (477, "ff")):
        case("xp", at, text)
        case("ebr_read")

    note("EBR: written, the lengths and the order 4, 19")
    for ebr in (FIRST_OF_K, LINKED):
        for length in (512, 513, 511, 0):
            case("o", length, 204)
            ebr_case("ebr_write", ebr)
    for flag in (1, 0x7F, 0x81, 0xFF):
        bad = part(0x83, 1, 1, flag)
        for length in (512, 511):
            case("o", length, 3)
            ebr_case("ebr_write", m.EBR(bytes(446), bad, LINKED.link))
            ebr_case("ebr_write", m.EBR(bytes(446), LINKED.partition, bad))
    case("o", 512, 255)
    ebr_case("ebr_write", m.EBR(bytes(446), part(0x83, 1, 1, 0x80), part(0x05, 1, 1, 0x80)))

    note("EBR: seeded, read and written again")
    rng = Seeded(303)
    for _ in range(8):
        lend(m.ebr_bytes(m.EBR(rng.bytes(446), seeded_entry(rng), seeded_entry(rng), rng.bytes(32))))
        case("ebr_read")
        case("o", 512, 102)
        case("ebr_again")
    case("xp", 510, "0000")
    case("ebr_again")
    for _ in range(6):
        case("o", 530, 1)
        ebr_case("ebr_write", m.EBR(rng.bytes(30) + bytes(416), seeded_entry(rng, narrow=False),
                                    seeded_entry(rng, narrow=False), rng.bytes(32)))


# ---------------------------------------------------------------- the extract


def words_extract(size, disk_size, lbas, kept, **given):
    """The bytes of an extract, good or not: a word of the header that is given stands as it is."""
    n = len(lbas)
    head = {"size": size, "disk": disk_size, "n": n, "list": 24, "records": 24 + 4 * n, "total": 24 + 516 * n}
    head.update(given)
    return (b"".join(m.four(v) for v in head.values()) + b"".join(map(m.four, lbas)) + b"".join(kept))


def marked(number):
    """A record that is told from others by four bytes."""
    record = bytearray(512)
    at = number * 37 % 506
    record[at:at + 2] = bytes([number % 251 + 1, number * 7 % 256])
    record[0] = number % 256
    record[511] = 255 - number % 256
    return bytes(record)


def rising(n, first=10, step=7):
    return [first + step * i for i in range(n)]


def numbered(n, disk_size=100000, size=512, lbas=None):
    """A good extract of n marked records."""
    lbas = rising(n) if lbas is None else lbas
    return words_extract(size, disk_size, lbas, [marked(i + 1) for i in range(n)])


# Ways to break one rule of an extract of three records (length 1,572, LBAs 10, 17 and 24, D 100,000): a place and the new
# word. No place: the length that is lent.
BREAKS = (
    ("size 0", 0, 0), ("size 256", 0, 256), ("size 768", 0, 768), ("size 8192", 0, 8192), ("size big", 0, BIG),
    ("D at the last LBA", 4, 24), ("D 0", 4, 0), ("D in the middle", 4, 17),
    ("n one more", 8, 4), ("n one fewer", 8, 2), ("n over", 8, RECORDS + 1), ("n big", 8, BIG), ("n wraps", 8, 3 + 2 ** 30),
    ("list", 12, 28), ("list big", 12, BIG), ("list 0", 12, 0),
    ("records", 16, 40), ("records low", 16, 35), ("records big", 16, BIG),
    ("total one more", 20, 1573), ("total one fewer", 20, 1571), ("total 0", 20, 0),
    ("first two equal", 28, 10), ("first two turned", 28, 9), ("last two equal", 32, 17), ("last two turned", 32, 0),
    ("first high", 24, BIG), ("last at D", 32, 100000), ("last big", 32, BIG),
    ("lent one fewer", None, 1571), ("lent one more", None, 1573), ("lent 36", None, 36), ("lent 24", None, 24),
    ("lent 23", None, 23), ("lent 0", None, 0))


def broken(x, *breaks):
    x = bytearray(x)
    length = len(x)
    for _, at, word in breaks:
        if at is None:
            length = word
        else:
            x[at:at + 4] = m.four(word)
    return bytes((x + bytes(4))[:length])


def extract_rule_cases():
    near = Near()

    def checked(x):
        near.lend(x)
        case("extract_check")

    note("extract: D 0 and the greatest, n 0, 1, 63, 64 and 65")
    for disk_size in (0, 1, 2, 4096, BIG):
        checked(words_extract(512, disk_size, [], []))
        for lba in (0, 1, 4095, 4096, BIG - 1, BIG):
            checked(words_extract(512, disk_size, [lba], [marked(lba)]))
    for n in (2, 3, RECORDS - 1, RECORDS, RECORDS + 1):
        checked(numbered(n))
        case("extract_find", 10)
        checked(numbered(n, disk_size=10 + 7 * (n - 1) + 1))
        checked(numbered(n, disk_size=10 + 7 * (n - 1)))
    checked(numbered(RECORDS, disk_size=BIG, lbas=[BIG - RECORDS + i for i in range(RECORDS)]))
    checked(numbered(RECORDS, disk_size=BIG, lbas=[BIG - RECORDS + 1 + i for i in range(RECORDS)]))
    checked(numbered(RECORDS, disk_size=RECORDS, lbas=list(range(RECORDS))))
    for at in (1, 31, 32, 62, 63):
        for less in (7, 8):
            lbas = rising(RECORDS)
            lbas[at] -= less
            checked(numbered(RECORDS, lbas=lbas))

    note("extract: the lent length alone")
    for length in (0, 1, 4, 23, 24, 25):
        checked(bytes(length))
        case("extract_find", 0)

    note("extract: the sector size")
    for size in (0, 1, 2, 256, 511, 512, 513, 768, 1023, 1024, 1536, 2048, 2560, 3072, 3584, 4095, 4096, 4097, 6144, 8192,
                 65536, 512 + 65536, 2 ** 31, BIG):
        checked(words_extract(size, 9, [], []))

    note("extract: counts that wrap")
    for n in (2 ** 30, 2 ** 31, 3 * 2 ** 30, BIG):
        checked(words_extract(512, 9, [], [], n=n, records=(24 + 4 * n) % 2 ** 32, total=(24 + 516 * n) % 2 ** 32))

    good = numbered(3)
    assert len(good) == 1572
    note("extract: every rule broken alone")
    checked(good)
    for lba in (10, 17, 24, 11, 100000):
        case("extract_find", lba)
    for one in BREAKS:
        checked(broken(good, one))
        for lba in (10, 100000):
            case("extract_find", lba)
    note("extract: every two rules broken")
    pairs = [(one, other) for i, one in enumerate(BREAKS) for other in BREAKS[i + 1:] if one[1] != other[1]]
    for one, other in sorted(pairs, key=lambda pair: len(broken(good, *pair))):
        checked(broken(good, one, other))


def extract_find_cases():
    note("extract: a record by its LBA")
    for n in (0, 1, 2, 3, 5, RECORDS - 1, RECORDS):
        lend(numbered(n, disk_size=1000))
        lbas = rising(n)
        for lba in sorted({0, 9, 10, 11, 12, 17, 18, 31, 32, 227, 228, 444, 445, 451, 452, 999, 1000, 1001, BIG}
                          | set(lbas)):
            case("extract_find", lba)
    note("extract: LBAs at the ends")
    lend(words_extract(512, BIG, [0, 1, 65536, BIG - 2, BIG - 1], [marked(i) for i in range(5)]))
    for lba in (0, 1, 2, 256, 65535, 65536, 65537, BIG - 3, BIG - 2, BIG - 1, BIG):
        case("extract_find", lba)
    lend(words_extract(4096, 0, [], []))
    for lba in (0, 1, BIG):
        case("extract_find", lba)
    note("extract: seeded records of full bytes")
    rng = Seeded(404)
    lend(words_extract(1024, 77, [3, 4, 76], [rng.bytes(512) for _ in range(3)]))
    for lba in (2, 3, 4, 5, 75, 76, 77):
        case("extract_find", lba)

    note("extract: the byte place of an LBA")
    for size in (512, 1024, 2048, 4096):
        for lba in (0, 1, 7, 1048576, 8388607, 8388608, BIG - 1, BIG):
            case("extract_place", size, lba)
    for size in (0, 1, 256, 511, 513, 768, 1536, 3072, 4095, 4097, 8192, 2 ** 31, BIG):
        case("extract_place", size, 1)


def extract_lay_cases():
    record = marked(200)
    note("laying a record: first, middle, last, replaced and inserted, outputs short, full and longer")
    for n in (0, 1, 2, 3, RECORDS - 1, RECORDS):
        lbas = rising(n)
        lend(numbered(n, disk_size=1000, size=512 << n % 4) + record)
        middle = 10 + 7 * (n // 2)
        for lba in sorted({0, 9, 10, 11, middle, middle + 1, 10 + 7 * (n - 1), 10 + 7 * n, 998, 999, 1000, BIG}):
            if lba < 0:
                continue
            need = 24 + 516 * min(RECORDS, len(set(lbas) | {lba}))
            for length in (need, need - 1, need + 1):
                case("o", length, 10 + n)
                case("extract_lay", lba, 512)
    for length in (0, 1, 24, 539, 540, 541, 1056, 40000, 65536):
        lend(numbered(0, disk_size=1000) + record)
        case("o", length, 77)
        case("extract_lay", 5, 512)
        lend(numbered(1, disk_size=1000) + record)
        case("o", length, 78)
        case("extract_lay", 10, 512)

    note("laying a record: LBAs at the ends")
    lend(words_extract(512, BIG, [0, 65536, BIG - 1], [marked(i) for i in range(3)]) + record)
    for lba in (0, 1, 65535, 65536, 65537, BIG - 2, BIG - 1, BIG):
        case("o", 2100, 1)
        case("extract_lay", lba, 512)
    lend(words_extract(512, 0, [], []) + record)
    for lba in (0, 1, BIG):
        case("o", 540, 2)
        case("extract_lay", lba, 512)
    lend(words_extract(512, 1, [], []) + record)
    for lba in (0, 1):
        case("extract_lay", lba, 512)

    note("laying a record: the record's length, and the order 1, 2, 22, 19")
    for n in (0, 1, RECORDS):
        for long in (0, 1, 511, 513, 1024):
            lend(numbered(n, disk_size=1000) + bytes([9]) * long)
            for lba in (10, 5, 1000):
                for length in (0, 40000):
                    case("o", length, 4)
                    case("extract_lay", lba, long)
    for change in ((), BREAKS[0], BREAKS[12], BREAKS[27]):
        changes = (change,) if change else ()
        lend(broken(numbered(3), *changes) + record)
        for lba in (10, 5, 100000):
            for length in (0, 2087, 2088):
                case("o", length, 4)
                case("extract_lay", lba, 512)
    for one in BREAKS:
        lend(broken(numbered(3), one) + record)
        case("o", 2100, 5)
        case("extract_lay", 17, 512)
    lend(numbered(RECORDS + 1) + record)
    case("o", 34100, 6)
    case("extract_lay", 10, 512)
    case("extract_lay", 11, 512)

    note("laying a record: the record is all of X, and seeded bytes")
    lend(record)
    case("o", 600, 6)
    case("extract_lay", 0, 512)
    rng = Seeded(505)
    for lba in (2, 3, 4, 50, 76):
        lend(words_extract(2048, 77, [3, 50], [rng.bytes(512) for _ in range(2)]) + rng.bytes(512))
        case("o", 1600, lba)
        case("extract_lay", lba, 512)


if __name__ == "__main__":
    for section in (chs_cases, entry_cases, mbr_cases, ebr_cases, extract_rule_cases, extract_find_cases,
                    extract_lay_cases):
        section()
    print("\n".join(lines))
