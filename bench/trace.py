"""Instructions of each measured call, from an emulator's trace: python3 trace.py ENTRY LABELS <TRACE

TRACE has a line for each instruction that ran (qemu-user's -d exec, one instruction to a block), ENTRY is the address of
`measured_call` and LABELS has one line a call, in their order. A call's instructions are those from ENTRY to the return
behind the instruction that called it. Prints those of both sides and their ratio.
"""
import sys


def address(line):
    return int(line.split("/", 2)[1], 16)


def calls(lines, entry):
    mark = f"/{entry:016x}/"
    before = ""
    count, back = 0, None
    for line in lines:
        if back is None:
            if mark in line:
                caller = address(before)
                count, back = 1, range(caller + 2, caller + 9)
            before = line
        elif address(line) in back:
            yield count
            back, before = None, line
        else:
            count += 1


def main(entry, labels):
    counts = list(calls((line for line in sys.stdin if line.startswith("Trace ")), int(entry, 16)))
    names = [line.rstrip("\n").split("|") for line in open(labels)]
    if len(names) != len(counts):
        sys.exit(f"{len(names)} labels, {len(counts)} calls in the trace")
    found = {tuple(name): count for name, count in zip(names, counts)}
    print("operation|logical partitions|ours|mbrman|mbrman / ours")
    for operation, given, side in names:
        if side == "ours":
            ours, theirs = found[operation, given, "ours"], found[operation, given, "mbrman"]
            print(f"{operation}|{given}|{ours}|{theirs}|{theirs / ours:.2f}")


if __name__ == "__main__":
    main(*sys.argv[1:])
