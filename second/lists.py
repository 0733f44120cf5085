"""Writes the extract of a disk that a program of the listing is run on, or with the word `listing` its listing, to
standard output: python3 lists.py full|refused [listing]
"""
import sys

import model as m

# Every hex digit from A on in both places; none of them is an extended type.
TYPES = (0xAF, 0xBE, 0xCD, 0xDC, 0xEB, 0xFA)


def chained(n: int) -> bytes:
    """Two primaries and n logical partitions, whose EBRs stand at 5,000, 5,100 and so on."""
    records = {}
    for k in range(n):
        boot = 0x80 if k % 5 == 0 else 0
        partition = m.Entry(boot=boot, sys=TYPES[k % len(TYPES)], starting_lba=10, sectors=80 - k)
        link = m.Entry(sys=0x0F, starting_lba=100 * (k + 1), sectors=100) if k + 1 < n else m.Entry()
        records[5000 + 100 * k] = m.ebr_bytes(m.EBR(bytes(446), partition, link))
    entries = (m.Entry(boot=0x80, sys=0xEF, starting_lba=60, sectors=4000), m.Entry(),
               m.Entry(sys=0x0F, starting_lba=5000, sectors=4294962295), m.Entry(sys=0x0C, starting_lba=10, sectors=50))
    header = m.Header(bytes(440), bytes(4), bytes(2), entries, m.SIGNATURE)
    return m.extract_bytes(m.Disk(4096, 4294967295, {0: m.header_bytes(header), **records}))


# as many logical partitions as there can be, and one more
DISKS = {"full": chained(m.LOGICALS), "refused": chained(m.LOGICALS + 1)}

if __name__ == "__main__":
    x = DISKS[sys.argv[1]]
    sys.stdout.buffer.write(m.listing(x).encode() if sys.argv[2:] == ["listing"] else x)
