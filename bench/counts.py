"""Instructions from callgrind's files, one a measured call: python3 counts.py FOLDER [TOP]

FOLDER has `labels`, one line a call, and out.1, out.2 and so on. Prints for each operation and input the instructions of
both sides and, of mbrman's, those of the stand-ins and of the alignment with all that they call; with TOP so many
functions of each side with their own instructions.
"""
import os
import re
import sys
from collections import Counter

STANDIN = re.compile(r"bitvec::|<bitvec")
SERIAL = re.compile(r"decode_from_std_read|encode_into_std_write")
ADAPTER = re.compile(r"bench::disk::Disk")
ALIGN = re.compile(r"find_alignment")
BLOCK = re.compile(r"^block(read|write)::")
COPY = re.compile(r"mem(cpy|move)")


class Calls:
    """Own instructions of each function, and of each pair (caller, called) what the called one took with all below it."""

    def __init__(self, path):
        self.own, self.below = Counter(), Counter()
        function = called = None
        for line in open(path):
            if line.startswith("fn="):
                function = line[3:].rstrip()
            elif line.startswith("cfn="):
                called = line[4:].rstrip()
            elif line[0].isdigit() or line[0] in "+-*":
                cost = int(line.split()[-1])
                if called is None:
                    self.own[function] += cost
                else:
                    self.below[function, called] += cost
                    called = None

    def all(self):
        return sum(self.own.values())

    def under(self, pattern):
        """What the functions of a pattern took, with all below them."""
        return sum(n for (a, b), n in self.below.items() if pattern.search(b) and not pattern.search(a))


def main(folder, top=0):
    labels = [line.rstrip("\n").split("|") for line in open(os.path.join(folder, "labels"))]
    calls = {}
    for i, (operation, given, side) in enumerate(labels, 1):
        calls[operation, given, side] = Calls(os.path.join(folder, f"out.{i}"))
    print("operation|logical partitions|ours|of it blocks|of it copies|mbrman|mbrman / ours|of mbrman's bitvec|"
          "bincode with serde, bitvec and adapter|adapter|alignment|without bitvec, / ours")
    for operation, given, side in labels:
        if side != "ours":
            continue
        ours, theirs = calls[operation, given, "ours"], calls[operation, given, "mbrman"]
        a, b = ours.all(), theirs.all()
        bits, serial, adapter, align = (theirs.under(p) for p in (STANDIN, SERIAL, ADAPTER, ALIGN))
        blocks, copies = ours.under(BLOCK), ours.under(COPY)
        print(f"{operation}|{given}|{a}|{blocks}|{copies}|{b}|{b / a:.2f}|{bits}|{serial}|{adapter}|{align}|{(b - bits) / a:.2f}")
        if top:
            for name, c in (("ours", ours), ("mbrman", theirs)):
                for function, n in c.own.most_common(top):
                    print(f"    {name} {n} {function}")


if __name__ == "__main__":
    main(sys.argv[1], *map(int, sys.argv[2:]))
