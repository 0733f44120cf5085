"""Writes the extract of document 01's disk K, or with the word `listing` its listing, to standard output.

With the word `image` and a name it makes the disk itself as a file, most of it a hole.
"""
import sys

import model as m


def disk_k() -> bytes:
    """D 20,480; primary 1 type 05 at 4,096+16,384; one logical, type 83, EBR 4,096, start 6,144, 2,048 sectors."""
    extended = m.Entry(sys=0x05, starting_lba=4096, sectors=16384)
    logical = m.Entry(sys=0x83, starting_lba=2048, sectors=2048)
    none = m.Entry()
    header = m.Header(bytes(440), bytes(4), bytes(2), (extended, none, none, none), b"\x55\xaa")
    ebr = m.EBR(bytes(446), logical, none)
    return m.extract_bytes(m.Disk(512, 20480, {0: m.header_bytes(header), 4096: m.ebr_bytes(ebr)}))


def make_image(x: bytes, path: str) -> None:
    disk = m.extract_disk(x)
    with open(path, "wb") as image:
        image.truncate(disk.disk_size * disk.sector_size)
        for lba, record in disk.records.items():
            image.seek(lba * disk.sector_size)
            image.write(record)


if __name__ == "__main__":
    x = disk_k()
    if sys.argv[1:2] == ["image"]:
        sys.exit(make_image(x, sys.argv[2]))
    sys.stdout.buffer.write(m.listing(x).encode() if sys.argv[1:] == ["listing"] else x)
