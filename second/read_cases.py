"""Writes the cases of reading and of what it wants: python3 read_cases.py > cases"""
from dataclasses import replace

import cases as c
import model as m
from cases import BIG, MOST, case, header_of, note, part
from disk_k import disk_k
from model import CHS, EBR, Entry

near = c.Near()


def read(x, header_too=False):
    near.lend(x)
    case("read")
    case("wanted")
    if header_too:
        case("read_header")


def disk(disk_size, records, size=512):
    return m.extract_bytes(m.Disk(size, disk_size, dict(records)))


def code(number):
    """Code that is told from others by its first and last byte."""
    return bytes([number % 256]) + bytes(444) + bytes([number * 3 % 256])


def mark(number):
    """A mark of random bytes, the same for the same number."""
    return c.Seeded(number).bytes(32)


def coded(ebr, number):
    return replace(ebr, bootstrap_code=code(number), mark=mark(number))


def with_header(header, disk_size=100000, others=()):
    return disk(disk_size, {0: m.header_bytes(header), **dict(others)})


# ---------------------------------------------------------------- a long chain

X = 5000
STEP = 100
D = 10000
LINK = Entry(0, CHS(1, 2, 3), 0x05, CHS(4, 5, 6), 0, STEP)


def chain(n, start=X, step=STEP):
    """EBRs at start, start + step and so on, as a list; the last one's link ends the chain."""
    ebrs = []
    for k in range(n):
        link = m.NO_ENTRY
        if k + 1 < n:
            link = replace(LINK, starting_lba=step * (k + 1), first_chs=CHS(k + 1, k, 1), last_chs=CHS(k + 1, k, 63),
                           sectors=step + k)
        partition = Entry(0, CHS(k, 1, 1), 0x83, CHS(k, 2, 2), 10, 80 - k)
        ebrs.append(EBR(code(k + 1), partition, link, mark(k + 1)))
    return ebrs


def records_of(ebrs, start=X, step=STEP):
    return {start + step * k: m.ebr_bytes(ebr) for k, ebr in enumerate(ebrs)}


EXTENDED = Entry(0, CHS(7, 8, 9), 0x0F, CHS(10, 11, 12), X, 4000)


def chained(records, disk_size=D, extended=EXTENDED, more=(), size=512):
    """The disk of a header with this extended entry and these records."""
    header = header_of(extended, *more, code=b"\x01" + bytes(438) + b"\x02", disk=b"\1\2\3\4", copy=b"\x5a\x5a")
    return disk(disk_size, {0: m.header_bytes(header), **records}, size)


def changed(ebr, partition=None, link=None):
    """The EBR with fields of its entries replaced."""
    return replace(ebr, partition=replace(ebr.partition, **(partition or {})), link=replace(ebr.link, **(link or {})))


def empty_first(n):
    """That chain, its first EBR without a partition."""
    ebrs = chain(n)
    return [replace(ebrs[0], partition=m.NO_ENTRY)] + ebrs[1:]


def damaged(record, at, text):
    record = bytearray(record)
    new = bytes.fromhex(text)
    record[at:at + len(new)] = new
    return bytes(record)


# What is wrong with the EBR of a number, counted from 0, of a chain: each takes the EBRs and the records and changes one.


def lies_at(k):
    return X + STEP * k


def past_end(ebrs, records, k, place=D):
    """The link that leads there gives a place at or past D."""
    records[lies_at(k - 1)] = m.ebr_bytes(changed(ebrs[k - 1], link={"starting_lba": place - X}))


def put(ebrs, records, k, **fields):
    records[lies_at(k)] = m.ebr_bytes(changed(ebrs[k], **fields))


def damage(ebrs, records, k, at, text):
    records[lies_at(k)] = damaged(records[lies_at(k)], at, text)


def one_wrong(n, k, f, *args, **fields):
    ebrs = chain(n)
    records = records_of(ebrs)
    f(ebrs, records, k, *args, **fields)
    return chained(records)


# ---------------------------------------------------------------- the header and the alignment


def header_cases():
    note("reading: disk K")
    read(disk_k(), True)
    for size in (1024, 2048, 4096, 256, 8192):
        read(m.four(size) + disk_k()[4:], True)

    note("reading: the extract refused before all else")
    for length in (0, 23, 24, 1055):
        read(disk_k()[:length], True)
    read(disk_k() + b"\0", True)
    read(c.broken(disk_k(), ("n", 8, 3)), True)
    read(c.broken(disk_k(), ("D", 4, 4096)), True)
    read(c.broken(disk_k(), ("D", 4, 0)), True)

    note("reading: the header at 2, 3, 4")
    for disk_size in (0, 1, BIG):
        read(disk(disk_size, {}), True)
    read(disk(1, {0: bytes(512)}), True)
    read(disk(9, {1: m.header_bytes(c.DISK_K)}), True)
    good = m.header_bytes(header_of(part(0x83, 64, 10, 0x80), part(0x83, 128, 10), code=code(7)[:440]))
    read(disk(1, {0: good}), True)
    for text in ("aa55", "0000", "55ab", "54aa"):
        read(disk(200, {0: damaged(good, 510, text)}), True)
        read(disk(200, {0: damaged(damaged(good, 510, text), 446, "01")}), True)
    for at in (446, 462, 478, 494):
        for text in ("80", "01", "7f", "81", "ff"):
            read(disk(200, {0: damaged(good, at, text)}), True)
    rng = c.Seeded(606)
    for _ in range(6):
        entries = [replace(c.seeded_entry(rng), sys=rng.of((0, 1, 0x82, 0x83))) for _ in range(4)]
        read(with_header(header_of(*entries, code=rng.bytes(20) + bytes(400) + rng.bytes(20), disk=rng.bytes(4),
                                   copy=rng.bytes(2))), True)


def alignment_cases():
    note("reading: the alignment of the used starts")
    lists = [(), (63,), (32768,), (0, 63), (0,), (0, 0), (0, 0, 0, 0), (1,), (1, 1), (0, 1), (1, 0), (1, 0, 0, 0), (2,),
             (2048,), (2048, 4096), (2048, 2049), (63, 126, 2048), (63, 16065), (16383,), (16384,), (16385,), (16386,),
             (32766,), (32767,), (49152,), (49152, 32768), (49152, 16384), (49152, 8192, 4096), (65536, 81920),
             (16381,), (16411,), (32822,), (BIG,), (BIG, BIG), (BIG - 1,), (BIG, BIG - 1), (2 ** 31,), (2 ** 31, 63),
             (6, 10, 15), (6, 10, 15, 30), (12, 18), (18, 12), (0, 0, 7), (7, 0, 0), (0, BIG), (0, 2 ** 31),
             (100, 200, 300, 400), (12345, 54321), (4095, 4096), (10 ** 9, 10 ** 9 + 8), (4294836225,), (65535, 65535)]
    for starts in lists:
        read(with_header(header_of(*(part(0x83, start, 1) for start in starts))))
    note("reading: unused starts play no part")
    for starts in ((5, 7), (0, 9), (BIG, 64)):
        read(with_header(header_of(part(0, starts[0], 9), part(0x83, starts[1], 9), part(0, 3, 3))))
    read(with_header(header_of(part(0, 1, 9), part(0, 0, 9), part(0, 3, 3))))
    read(with_header(header_of(part(0, 7, 9), part(0x83, 1, 9), part(0, 3, 3))))
    read(with_header(header_of(part(0, 7, 9), part(0x83, 0, 9), part(0, 3, 3))))


# Primes below and above 16,384; the last one is the highest below 2 to the 32nd.
BELOW = (127, 131, 8191, 16369, 16381)
ABOVE = (16411, 16417, 65537, 1000003, 2147483647, 4294967291)


def started(starts, zeros=0):
    """A disk with these used starts: up to three primaries, then the extended entry and the partitions of its chain, whose
    EBRs lie one behind the other, so that the starts ascend from the extended entry on. So many primaries start at 0."""
    primaries, others = starts[:3], starts[3:]
    entries = [part(0x83, 0 if k < zeros else start, 1) for k, start in enumerate(primaries)]
    records = {}
    if others:
        first = others[0]
        entries.append(part(0x05, first, 1))
        for k, start in enumerate(others[1:]):
            link = part(0x05, k + 1, 1) if k + 2 < len(others) else m.NO_ENTRY
            records[first + k] = m.ebr_bytes(EBR(bytes(446), part(0x83, start - first - k, 1), link))
    return disk(BIG, {0: m.header_bytes(header_of(*entries)), **records})


def divisor_cases():
    note("reading: the alignment where the greatest common divisor is a prime, a power of two, or a product of two primes")
    products = [p * q for p in BELOW for q in BELOW + ABOVE[:4] if p <= q] + [16411 * 16417, 65521 * 65537]
    for one in BELOW + ABOVE + tuple(2 ** k for k in range(13, 32)) + tuple(p for p in products if p <= BIG):
        near.lend(with_header(header_of(part(0x83, one, 1))))
        case("read")
    note("reading: the alignment where it is not the lowest start, and zeros among the starts")
    for one in (1, 2, 127, 16369, 16381, 16384, 16385, 16411, 2 * 16411, 127 * 131, 65537):
        for times in ((2, 3), (3, 2), (6, 10, 15), (4, 6, 9, 21), (0, 2, 3), (2, 0, 3), (35, 0, 21, 0), (0, 0, 14, 77)):
            near.lend(with_header(header_of(*(part(0x83, one * k, 1) for k in times))))
            case("read")
    note("reading: the alignment where Euclid's rule takes its longest way")
    for starts in ((2971215073, 1836311903), (1836311903, 2971215073), (2971215073, 1836311903, 0, 1134903170)):
        near.lend(with_header(header_of(*(part(0x83, start, 1) for start in starts))))
        case("read")
    note("reading: the alignment of 0 to 28 used starts")
    rng = c.Seeded(808)
    common = (1, 63, 2048, 16381, 16384, 16411, 32768, 2 * 16411, 127 * 131, 65537)
    for n in range(4 + MOST + 1):
        one = common[n % len(common)]
        times = sorted(rng.between(2, BIG // one) for _ in range(n))
        near.lend(started([one * k for k in times], rng.below(4)))
        case("read")
    near.lend(started([0, 0, 0, BIG]))
    case("read")


# ---------------------------------------------------------------- the chain


def extended_cases():
    note("reading: the first extended entry counts")
    here = {X: m.ebr_bytes(chain(1)[0]), 7000: m.ebr_bytes(coded(chain(1)[0], 99))}
    for kind in (0x05, 0x0F, 0x85, 0xC5, 0xD5, 0x04, 0x15, 0x1F, 0x83, 0):
        read(chained(here, extended=replace(EXTENDED, sys=kind)))
    other = Entry(0x80, CHS(3, 3, 3), 0x85, CHS(4, 4, 4), 7000, 100)
    used = part(0x83, 64, 64)
    for entries in ((EXTENDED, other), (other, EXTENDED), (used, EXTENDED, other), (used, other, EXTENDED), (used, used, other),
                    (used, used, used, other), (m.NO_ENTRY, m.NO_ENTRY, m.NO_ENTRY, EXTENDED), (used, used, EXTENDED, used)):
        read(chained(here, extended=entries[0], more=entries[1:]))

    note("reading: X at 0, at D and past it; the highest places")
    for place in (D - 1, D, D + 1, BIG - 1, BIG):
        read(chained(here, extended=replace(EXTENDED, starting_lba=place)))
    for disk_size in (X + 1, X + 2, BIG):
        read(chained({X: here[X]}, disk_size=disk_size))
    read(chained({}, disk_size=X))
    read(chained({}, disk_size=1))
    for start in (0, 1, 2, 3):
        for link in (0, 1, 5):
            last = m.ebr_bytes(EBR(code(5), part(0x83, start, 9), replace(LINK, starting_lba=link)))
            read(chained({BIG - 1: last}, disk_size=BIG, extended=replace(EXTENDED, starting_lba=BIG - 1)))
    for start in (0, 2, 3, 4):
        first = m.ebr_bytes(EBR(code(6), part(0x83, start, 9), replace(LINK, starting_lba=2)))
        last = m.ebr_bytes(EBR(code(7), part(0x83, start, 9), m.NO_ENTRY))
        read(chained({BIG - 3: first, BIG - 1: last}, disk_size=BIG, extended=replace(EXTENDED, starting_lba=BIG - 3)))
    for link in (1, 2, 3, 4, BIG - 1, BIG):
        first = m.ebr_bytes(EBR(code(6), part(0x83, 1, 9), replace(LINK, starting_lba=link)))
        read(chained({BIG - 3: first}, disk_size=BIG, extended=replace(EXTENDED, starting_lba=BIG - 3)))

    note("reading: X 0, where record 0 is the first EBR")
    at_zero = replace(EXTENDED, starting_lba=0)
    following = m.ebr_bytes(EBR(code(8), part(0x83, 24, 9), m.NO_ENTRY))
    for more in ((), (part(0x83, 0, 9),), (part(0x83, 40, 9),), (part(0x83, 41, 9),), (part(0x83, 40, 9, 0x80),),
                 (part(0, 40, 9),), (part(0, 0, 9), part(0x83, 7, 7)), (part(0x83, BIG, 9),), (part(0x83, D, 9),)):
        read(chained({40: following}, extended=at_zero, more=more))
        read(chained({40: following}, extended=replace(at_zero, boot=0x80), more=more))
    read(chained({40: following}, extended=part(0x83, 77, 9), more=(part(0x05, 0, 9),)))
    read(chained({40: following}, extended=part(0x83, 0, 9), more=(part(0x05, 0, 9),)))
    read(chained({40: following}, extended=part(0, 77, 9), more=(part(0x05, 0, 9),)))
    read(chained({40: following}, extended=part(0x83, 77, 9), more=(part(0x83, 40, 9), part(0x05, 0, 9))))
    read(chained({40: m.ebr_bytes(EBR(code(8), part(0x83, 24, 9), part(0x05, 40, 9)))}, extended=at_zero,
                 more=(part(0x83, 40, 9),)))


def first_cases():
    note("reading: the first EBR forgiven")
    for n in (1, 2, MOST):
        for at, text in ((510, "0000"), (510, "aa55"), (510, "55ab"), (446, "01"), (446, "ff"), (462, "01"), (462, "7f"),
                         (446, "80"), (462, "80")):
            read(one_wrong(n, 0, damage, at, text))
        records = records_of(chain(n))
        records[X] = bytes(512)
        read(chained(records))
        del records[X]
        read(chained(records))
    note("reading: the first EBR not forgiven")
    for n in (1, 2):
        for start in (BIG - X, BIG - X + 1, BIG):
            read(one_wrong(n, 0, put, partition={"starting_lba": start}))
            read(one_wrong(n, 0, put, partition={"starting_lba": start, "sys": 0}))
    ebrs = chain(2)
    for partition, link in (({"starting_lba": BIG}, {"boot": 1}), ({"starting_lba": BIG, "boot": 1}, {}),
                            ({"starting_lba": BIG}, {"starting_lba": BIG})):
        records = records_of(ebrs)
        records[X] = m.ebr_bytes(changed(ebrs[0], partition, link))
        read(chained(records))


def later_cases():
    note("reading: chains of several lengths")
    for n in (1, 2, 3, 5, MOST - 1, MOST):
        read(chained(records_of(chain(n))), n == MOST)
    note("reading: each refusal at the second and the 24th EBR")
    for n, k in ((2, 1), (3, 1), (MOST, 1), (MOST, MOST - 1), (MOST + 1, MOST - 1), (MOST, MOST - 2)):
        for place in (D - 1, D, D + 1, X + BIG):
            read(one_wrong(n, k, past_end, place))
        for at, text in ((510, "0000"), (510, "55ab"), (446, "01"), (446, "7f"), (446, "81"), (446, "80"), (462, "ff"),
                         (462, "01"), (462, "80")):
            read(one_wrong(n, k, damage, at, text))
        highest = BIG - lies_at(k)
        for start in (highest, highest + 1, BIG):
            read(one_wrong(n, k, put, partition={"starting_lba": start}))
        for link in (1, STEP * k - 1, STEP * k, STEP * k + 1, STEP * (k - 1)):
            read(one_wrong(n, k, put, link={"starting_lba": link}))
        records = records_of(chain(n))
        del records[lies_at(k)]
        read(chained(records))

        note("the order at this EBR")
        low = STEP * k
        for partition, link, text in (
                ({"boot": 1}, {}, "0000"), ({"boot": 1, "starting_lba": BIG}, {}, "55aa"),
                ({"boot": 1}, {"starting_lba": low}, "55aa"), ({"starting_lba": BIG}, {"boot": 2}, "55aa"),
                ({"starting_lba": BIG}, {"starting_lba": low}, "55aa"), ({"starting_lba": BIG}, {"starting_lba": 0}, "55aa"),
                ({"starting_lba": BIG}, {"starting_lba": BIG}, "55aa"), ({}, {"starting_lba": low, "boot": 1}, "55aa"),
                ({}, {"starting_lba": low, "sys": 0}, "55aa"), ({}, {"starting_lba": 0, "sys": 5}, "55aa")):
            ebrs = chain(n)
            records = records_of(ebrs)
            records[lies_at(k)] = damaged(m.ebr_bytes(changed(ebrs[k], partition, link)), 510, text)
            read(chained(records))


def last_cases():
    note("reading: the 25th EBR")
    read(chained(records_of(chain(MOST + 1))), True)
    read(chained(records_of(chain(MOST + 2))))
    read(one_wrong(MOST + 1, MOST, damage, 510, "0000"))
    for at, text in ((510, "55ab"), (446, "01"), (446, "80"), (462, "ff"), (462, "80"), (0, "77")):
        read(one_wrong(MOST + 1, MOST, damage, at, text))
    for place in (D - 1, D, X + BIG):
        read(one_wrong(MOST + 1, MOST, past_end, place))
    read(one_wrong(MOST + 1, MOST, put, partition={"starting_lba": BIG}))
    read(one_wrong(MOST + 1, MOST, put, link={"starting_lba": 1}))
    read(one_wrong(MOST + 1, MOST, put, link={"starting_lba": BIG}))
    read(one_wrong(MOST + 1, MOST, put, partition={"sys": 0}))
    read(one_wrong(MOST + 1, MOST - 1, put, link={"starting_lba": 0}))
    read(one_wrong(MOST + 1, MOST - 1, put, link={"starting_lba": 0, "sys": 0, "boot": 0x80}))
    read(one_wrong(MOST + 1, MOST - 1, put, link={"sys": 0}))
    records = records_of(chain(MOST + 1))
    del records[lies_at(MOST)]
    read(chained(records))
    read(chained(records_of(chain(MOST + 1)), disk_size=lies_at(MOST) + 1))
    read(chained(records_of(chain(MOST)), disk_size=lies_at(MOST - 1) + 1))
    records = records_of(chain(MOST))
    del records[lies_at(MOST - 1)]
    read(chained(records, disk_size=lies_at(MOST - 1)))


def link_cases():
    note("reading: links of any type, flag and size")
    for n, k in ((3, 0), (3, 1)):
        for fields in ({"sys": 0}, {"sys": 0x83}, {"sys": 0xFF}, {"boot": 0x80}, {"boot": 0x80, "sys": 0}, {"sectors": 0},
                       {"sectors": BIG}, {"first_chs": m.NO_CHS, "last_chs": m.NO_CHS}, {"first_chs": CHS(1023, 255, 63)},
                       {"last_chs": CHS(1023, 255, 63)}, {"starting_lba": 0}, {"starting_lba": 0, "sys": 0x83},
                       {"starting_lba": STEP * (k + 1) - 1}, {"starting_lba": 2 * STEP}):
            read(one_wrong(n, k, put, link=fields))
        for fields in ({"sys": 0}, {"sys": 0x05}, {"boot": 0x80}, {"sectors": 0}, {"sectors": BIG}, {"starting_lba": 0},
                       {"starting_lba": 1}, {"first_chs": CHS(1023, 255, 63), "last_chs": CHS(1023, 255, 63)}):
            read(one_wrong(n, k, put, partition=fields))
    note("reading: a mark may be of any bytes")
    for text in ("00" * 32, "ff" * 32, m.entry_bytes(LINK).hex() * 2, "01" + "00" * 31, "00" * 31 + "80"):
        read(one_wrong(3, 1, damage, 478, text))
    note("reading: a chain that leaves the extended partition")
    for sectors in (0, 1, STEP, STEP + 1):
        read(chained(records_of(chain(3)), extended=replace(EXTENDED, sectors=sectors)))
    note("reading: a chain whose steps are 1")
    for n in (2, MOST, MOST + 1):
        read(chained(records_of(chain(n, step=1), step=1)))
    note("reading: records that reading does not look at, and absent ones")
    others = {lba: c.marked(lba) for lba in range(1, 39)}
    read(chained({**records_of(chain(MOST)), **others}))
    read(chained({**records_of(chain(2)), 1: c.marked(1), 4999: c.marked(2), 5001: c.marked(3), D - 1: c.marked(4)}))
    note("reading: sector sizes")
    for size in (512, 1024, 2048, 4096):
        read(chained(records_of(chain(2)), size=size))
    note("reading: the alignment of primaries and logicals")
    for start, primaries in ((4096, (2048,)), (4096, (63,)), (0, (0,)), (1, ()), (16384, (32768, 49152)), (1, (0,)), (0, ())):
        ebr = EBR(bytes(446), part(0x83, start, 9), m.NO_ENTRY)
        for place in (0x4000, 0x8000, 1):
            read(chained({place: m.ebr_bytes(ebr)}, disk_size=100000, extended=part(0x05, place, 9),
                         more=tuple(part(0x83, p, 9) for p in primaries)))
            read(chained({place: m.ebr_bytes(changed(ebr, {"sys": 0}))}, disk_size=100000, extended=part(0x05, place, 9),
                         more=tuple(part(0x83, p, 9) for p in primaries)))


def wanted_cases():
    """What reading still wants: extracts that lack records."""
    note("wanted: disk K without records, D 0 and 1")
    on_k = m.extract_disk(disk_k()).records
    zero, ebr = on_k[0], on_k[4096]
    for records in ({}, {4096: ebr}, {0: zero}, {0: zero, 4095: ebr}, {0: zero, 4097: ebr, 6144: bytes(512)}):
        read(disk(20480, records))
        read(disk(20480, records)[:-1])
    for disk_size in (0, 1):
        read(disk(disk_size, {}))
    for disk_size in (4096, 4097):
        read(disk(disk_size, {0: zero}))
    note("wanted: the first absent record in the chain's order, one or two of them absent")
    for n, several in ((3, ({0}, {1}, {2}, {0, 1}, {0, 2}, {1, 2})), (MOST, ({1, MOST - 2}, {MOST - 2}, {MOST - 1})),
                       (MOST + 2, ({MOST - 1, MOST}, {MOST}, {MOST + 1}))):
        for gone in several:
            read(chained({lba: record for lba, record in records_of(chain(n)).items() if lba not in map(lies_at, gone)}))
    note("wanted: an absent record behind an EBR at which reading ends")
    for n, k in ((3, 1), (3, 0)):
        for what in ({"link": {"starting_lba": 0}}, {"link": {"starting_lba": 1}}, {"link": {"starting_lba": STEP * k}},
                     {"link": {"boot": 1}}, {"partition": {"boot": 1}}, {"partition": {"starting_lba": BIG}},
                     {"partition": {"starting_lba": BIG - lies_at(k)}}, {"link": {"sys": 0}}):
            ebrs = chain(n)
            records = records_of(ebrs)
            put(ebrs, records, k, **what)
            del records[lies_at(k + 1)]
            read(chained(records))
        records = {lba: record for lba, record in records_of(chain(n)).items() if lba < lies_at(k + 1)}
        for disk_size in (lies_at(k + 1), lies_at(k + 1) + 1):
            read(chained(records, disk_size=disk_size))
    note("wanted: places below, at and beyond 2 to the 32nd")
    for link in (BIG - X - 1, BIG - X, BIG - X + 1, BIG):
        read(chained({X: m.ebr_bytes(changed(chain(2)[0], link={"starting_lba": link}))}, disk_size=BIG))
    note("wanted: X 0, where record 0 is the first EBR")
    for place in (1, 40, BIG):
        read(disk(D, {0: m.header_bytes(header_of(replace(EXTENDED, starting_lba=0), part(0x83, place, 9)))}))
    note("wanted: a header that is refused, or has no extended entry")
    for at, text in ((510, "0000"), (446, "01"), (450, "83"), (450, "00")):
        read(disk(20480, {0: damaged(zero, at, text)}))


def empty_cases():
    note("reading: a first EBR without a partition, alone and before others")
    for n in (1, 2, 3, MOST, MOST + 1):
        ebrs = empty_first(n)
        read(chained(records_of(ebrs)))
        for fields in ({"boot": 0x80}, {"boot": 1}, {"first_chs": CHS(1023, 255, 63), "last_chs": CHS(1023, 255, 63)},
                       {"starting_lba": 1}, {"sectors": 1}, {"sys": 0x83}):
            read(chained(records_of([changed(ebrs[0], fields)] + ebrs[1:])))
    read(chained(records_of(empty_first(2)), extended=replace(EXTENDED, sectors=1)))
    read(chained({1: m.ebr_bytes(EBR(code(5), m.NO_ENTRY, m.NO_ENTRY))}, disk_size=2, extended=part(0x05, 1, 1)))


def seeded_cases():
    note("reading: seeded chains")
    rng = c.Seeded(707)
    for _ in range(120):
        start = rng.of((1, 63, 2048, 4096, 100000, BIG - 3000))
        disk_size = rng.of((start + 1500, start + 2500, BIG))
        records = {}
        relative = 0
        for k in range(rng.below(7)):
            following = rng.of((0, relative + rng.between(1, 600), relative + rng.between(1, 600),
                                relative + rng.between(1, 600), rng.below(relative + 1)))
            partition = replace(c.seeded_entry(rng), sys=rng.of((0, 0x83, 0x05, 0x07)),
                                starting_lba=rng.of((0, 1, 63, 2048, 999, rng.below(4000))))
            link = replace(c.seeded_entry(rng), starting_lba=following)
            record = m.ebr_bytes(EBR(rng.bytes(4) + bytes(438) + rng.bytes(4), partition, link, rng.bytes(32)))
            if rng.below(15) == 0:
                record = damaged(record, rng.of((446, 462, 510)), "11")
            if start + relative < disk_size and rng.below(25) != 0:
                records[start + relative] = record
            if following <= relative:
                break
            relative = following
        entries = [replace(EXTENDED, starting_lba=start, sys=rng.of(m.EXTENDED_TYPES))]
        for _ in range(rng.below(4)):
            entries.insert(rng.below(2), replace(c.seeded_entry(rng), sys=rng.of((0, 0x83, 0x07)),
                                                 starting_lba=rng.of((0, 63, 2048, rng.below(BIG)))))
        read(disk(disk_size, {0: m.header_bytes(header_of(*entries, code=rng.bytes(5) + bytes(435))), **records},
                  512 << rng.below(4)))


if __name__ == "__main__":
    for section in (header_cases, alignment_cases, divisor_cases, extended_cases, first_cases, later_cases, last_cases, link_cases,
                    wanted_cases, empty_cases, seeded_cases):
        section()
    print("\n".join(c.lines))
