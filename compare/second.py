"""Answers cases of the comparison by the second program: python3 second.py < cases > answers

The commands are those of ../second/answers.py and, beside them, commands on T, a table that a line of its own gives:

    t SECTOR-SIZE D ALIGN CYLINDERS HEADS SECTORS COUNT CODE, then the 48 numbers of a header, then for each logical
      partition its entry, EBR place, link sectors or none, first link CHS, last link CHS or none, CODE, MARK

CODE is a number from 0 to 255: the code's first byte, and three times it, mod 256, its last; else it is zeros. MARK is the
same for the mark.
A command t_NAME is NAME on T, without the six numbers in front; t_push is push_all. Four are only here:

    t_write           writes T to the extract X, out to O: what it says, the table, O's length and checksum
    t_write_header    the same for T's header alone, without the table
    t_sound           is T sound?
    after_push        with the numbers of careful_push: the table afterwards, with that alignment and geometry
"""
import os
import re
import sys
from functools import lru_cache

sys.path.insert(0, os.path.join(os.path.dirname(os.path.abspath(__file__)), "..", "second"))

import answers as a
import model as m
from model import CHS, Refusal

PRIME = 4294967291
RUN = re.compile(rb"(.)\1{7,}", re.DOTALL)
THIRTIETH = pow(30, -1, PRIME)


@lru_cache(maxsize=4096)
def checksum(b):
    """answers.checksum, which goes byte by byte, quicker: runs of one byte at once."""
    total = at = 0
    for run in RUN.finditer(b):
        for byte in b[at:run.start()]:
            total = (total * 31 + byte) % PRIME
        at = run.end()
        power = pow(31, at - run.start(), PRIME)
        total = (total * power + run.group()[0] * (power - 1) * THIRTIETH) % PRIME
    for byte in b[at:]:
        total = (total * 31 + byte) % PRIME
    return total


for sample in (b"", b"\0", b"\0\0\7\0\0\xff\1\0", bytes(range(256)) * 3, bytes(900) + b"\5", b"\xff" * 99 + b"\7" * 8 + b"\7\1"):
    assert checksum(sample) == a.checksum(sample)
a.checksum = checksum


def lent(s):
    return f"{len(s.o)} {a.checksum(bytes(s.o))}"


def lent_out(s, f, *args):
    try:
        length = f(*args)
        said = "done" if length is None else str(length)
    except Refusal as r:
        said = f"refused {r.number}"
    return f"{said} {lent(s)}"


a.lent_out = lent_out


def code(number, length):
    return bytes([number % 256]) + bytes(length - 2) + bytes([number * 3 % 256])


class Words:
    def __init__(self, words):
        self.words = iter(words)

    def word(self):
        return next(self.words)

    def number(self):
        return int(self.word())

    def numbers(self, n):
        return [self.number() for _ in range(n)]

    def logical(self):
        partition = a.entry_of(self.numbers(10))
        place = self.number()
        sectors = self.word()
        first = CHS(*self.numbers(3))
        last = self.word()
        return m.Logical(partition, place, None if sectors == "none" else int(sectors), first,
                         None if last == "none" else CHS(int(last), *self.numbers(2)), code(self.number(), 446),
                         code(self.number(), 32))


def t(s, *words):
    w = Words(words)
    sector_size, disk_size, align, cylinders, heads, sectors, count = w.numbers(7)
    header = a.header_of(code(w.number(), 440), w.numbers(48))
    s.t = m.Table(sector_size, header, tuple(w.logical() for _ in range(count)), align, cylinders, heads, sectors,
                  disk_size)


def on_t(name):
    def command(s, *numbers):
        a.handed_in = lambda *_: s.t
        try:
            return a.COMMANDS[name](s, *(0,) * 6, *numbers)
        finally:
            a.handed_in = plain_handed_in

    return command


plain_handed_in = a.handed_in
a.CHANGES["t"] = t
for name in ("get", "len", "find", "remove", "remove_at", "check_geometry", "cylinder_size", "update_chs", "free",
             "first_place", "last_place", "best_place", "most", "most_for"):
    a.COMMANDS["t_" + name] = on_t(name)
a.COMMANDS["t_push"] = on_t("push_all")


def t_update_from(s):
    return a.changed(m.update_from, s.t, s.x)


def t_write(s):
    try:
        table, length = m.write_table(s.t, s.x, s.o)
        said = f"done {length}"
    except Refusal as r:
        table, said = s.t, f"refused {r.number}"
    return f"{said} {a.table_text(table)} {lent(s)}"


def t_write_header(s):
    return lent_out(s, m.write_header_only, s.t.header, s.x, s.o)


def t_sound(s):
    return a.truth(m.sound(s.t))


def after_push(s, align, cylinders, heads, sectors, *request):
    geometry = m.Geometry(cylinders, heads, sectors)
    return a.table_text(m.careful_push(s.x, align, geometry, *request, bytearray(m.STORES)).table)


for f in (t_update_from, t_write, t_write_header, t_sound, after_push):
    a.COMMANDS[f.__name__] = f

if __name__ == "__main__":
    for said in a.answers(sys.stdin.read()):
        print(said)
