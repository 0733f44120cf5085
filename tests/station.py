"""Tests the station's program on images: python3 tests/station.py PROGRAM PRELOAD SFDISK STRACE [quick]

SFDISK and STRACE may be empty. With quick there are fewer images, which takes some seconds.

Images with 0 to 24 logical partitions are made by sfdisk, images of every sector size by the second program; every EBR
has a mark of random bytes, which the second program compares too. Zones are pushed
behind the others and into gaps: where sfdisk's image lost a zone, and on the second program's. Each change is carried out whole,
and then again and again with the program stopped before and after each call that writes, and with calls that fail or are cut
short: from one on, one alone, and one with the program stopped right after it. Each time the image must read as the table before
or the table after: by the program's own list, by the second program and, where it made the image, by sfdisk. One kind of stop is
only counted: the sector that makes the change, cut within its record, and the program stopped before it puts the sector back. A
store is one sector and the medium writes it whole or not at all; nothing can mend half of one.
"""
import fcntl
import os
import random
import re
import subprocess
import sys
import tempfile
from pathlib import Path

HERE = Path(__file__).resolve().parent
sys.path.insert(0, str(HERE.parent / "second"))
sys.path.insert(0, str(HERE))
import model as m  # noqa: E402
import replay  # noqa: E402
import x86  # noqa: E402

PROGRAM, PRELOAD = sys.argv[1], sys.argv[2]
SFDISK = sys.argv[3] if len(sys.argv) > 3 and sys.argv[3] else None
STRACE = sys.argv[4] if len(sys.argv) > 4 and sys.argv[4] else None
QUICK = sys.argv[5:] == ["quick"]
WRITERS = "write,writev,pwrite64,pwritev,pwritev2,fsync,fdatasync,ftruncate,fallocate,copy_file_range,sendfile,mmap"
counts = {"changes": 0, "gaps": 0, "stops": 0, "refused": 0, "half": 0, "other": 0, "traced": 0, "damaged": 0}


def fail(what, *more):
    sys.exit(" ".join(["station: not so:", what, *map(str, more)]))


def progress(what):
    """One line that changes, on a terminal; else a line for each."""
    sys.stderr.write(f"\r\033[K{what}" if sys.stderr.isatty() else what + "\n")
    sys.stderr.flush()


def locked(path, words, **more):
    """Runs a program that finds the lock of a disk held by descriptor 9, as ./station has it."""
    nothing = os.open("/dev/null", os.O_RDONLY)
    os.dup2(nothing, 9)
    os.close(nothing)
    if os.path.exists(path):
        disk = os.open(path, os.O_RDONLY)
        fcntl.flock(disk, fcntl.LOCK_EX)
        os.dup2(disk, 9)
        os.close(disk)
    try:
        return subprocess.run(words, pass_fds=(9,), stdout=subprocess.PIPE, stderr=subprocess.PIPE, **more)
    finally:
        os.close(9)


def run(*args, how=None, at=0, cut=0, log=None):
    env = dict(os.environ)
    words = x86.words(PROGRAM, *args)
    if how or log:
        words, more = x86.preloaded(PRELOAD, PROGRAM, *args)
        env.update(more, STATION_HOW=how or "", STATION_AT=str(at), STATION_CUT=str(cut))
    if log:
        env["STATION_LOG"] = log
    if args[0] in ("push", "remove") and len(args) > 1 and "--dry-run" not in args:
        return locked(str(args[1]), words, env=env)
    return subprocess.run(words, env=env, stdout=subprocess.PIPE, stderr=subprocess.PIPE)


class Image:
    """An image file; what a run changes is put back from the bytes of the sectors that matter."""

    def __init__(self, path, size):
        self.path, self.size = path, size
        self.disk_size = os.path.getsize(path) // size

    def sector(self, lba):
        with open(self.path, "rb") as f:
            f.seek(lba * self.size)
            return f.read(self.size)

    def put(self, lba, data):
        with open(self.path, "r+b") as f:
            f.seek(lba * self.size)
            f.write(data)

    def disk(self):
        """The disk as the second program reads it, sector by sector."""
        image = self

        class Records(dict):
            def get(self, lba, other):
                return image.sector(lba)[:512]

        return m.Disk(self.size, self.disk_size, Records())

    def table(self):
        return replay.contents(self.disk())

    def extract(self):
        disk = self.disk()
        try:
            m.read_disk(disk)
        except m.Refusal:
            pass
        return m.extract_bytes(m.Disk(self.size, self.disk_size, {lba: self.sector(lba)[:512] for lba in disk.looked}))

    def listed(self):
        done = run("list", self.path, "--sector", self.size)
        if done.stdout:
            return done.stdout.decode()
        return done.stderr.decode().split(":")[0] + "\n"


def by_sfdisk(image):
    """Start, sectors and type of each partition by sfdisk's dump."""
    found = []
    text = subprocess.run([SFDISK, "-d", image.path], stdout=subprocess.PIPE, stderr=subprocess.PIPE).stdout.decode()
    for line in text.splitlines():
        if "start=" in line:
            fields = dict(f.strip().split("=") for f in line.split(":")[1].split(",") if "=" in f)
            found.append((int(fields["start"]), int(fields["size"]), int(fields["type"], 16)))
    return found


def by_list(text):
    rows = [line.split() for line in text.splitlines()[1:]]
    return [(int(start), int(sectors), int(kind, 16)) for _, kind, _, start, sectors in rows]


def views(image, sfdisk):
    listed = image.listed()
    seen = (image.table(), listed, by_sfdisk(image) if sfdisk else None)
    if sfdisk and not listed.startswith("refused") and by_list(listed) != seen[2]:
        fail("sfdisk lists the same", image.path, listed, seen[2])
    if listed != m.listing(image.extract()):
        fail("the second program lists the same", listed)
    return seen


def attempts(calls, size):
    """How each call is stopped: what happens, at which call, after how many bytes. Calls with odd numbers write."""
    for at in range(1, calls + 1):
        yield from (("kill", at, 0), ("before", at, 0), ("fail", at, 0))
    for at in range(1, calls, 2):
        for cut in (0, 1, 446, 462, 463, 470, 474, 477, 478, 494, 511, 512, size - 512, size - 1):
            if cut < size and (cut < 512 or size > 512):
                yield from (("cut", at, cut), ("once", at, cut), ("torn", at, cut))


def last_words(args, made):
    """How the program ends a change: a push with the number of the new partition, whose EBR is the first store."""
    if args[0] != "push":
        return "done\n"
    places = [l.absolute_ebr_lba for l in made.table.logicals]
    return f"number {5 + places.index(made.stores[0][0])}\ndone\n"


def traced(args, image, made):
    """The calls that could write to the disk, by the system's own trace: each store, then a flush that answers 0."""
    with tempfile.TemporaryDirectory() as folder:
        done = locked(image.path, [STRACE, "-f", "-o", folder + "/trace", "-e", "trace=" + WRITERS, PROGRAM, *map(str, args),
                                   "--sector", str(image.size)])
        lines = Path(folder + "/trace").read_text().splitlines()
    if done.stdout.decode() != last_words(args, made):
        fail("done under strace", args, done)
    seen = []
    for line in lines:
        call = re.match(r"\d+ +(\w+)\((.*)\) += (-?\w+)", line)
        if not call or call[1] == "mmap" and ("PROT_WRITE" not in call[2] or "MAP_SHARED" not in call[2]):
            continue
        if call[1] == "write" and call[2][:2] in ("1,", "2,"):
            continue
        place = call[2].rsplit(", ", 2)[1:] if call[1] == "pwrite64" else []
        seen.append((call[1], *map(int, place), call[3]))
    want = [w for lba, _ in made.stores for w in (("pwrite64", image.size, lba * image.size, str(image.size)), ("fsync", "0"))]
    if seen != want:
        fail("the trace has each store, and a flush that answers 0 before the next", args, lines)
    counts["traced"] += 1


def put_back(image, kept):
    for lba, data in kept.items():
        image.put(lba, data)


def dry(image, args, made, before, sfdisk):
    done = run(*args, "--dry-run", "--sector", image.size)
    stores = "".join(f"store {lba}\n" + "".join(f"{at:03x} " + record[at:at + 16].hex(" ") + "\n"
                                                 for at in range(0, 512, 16) if any(record[at:at + 16]))
                     for lba, record in made.stores)
    want = "before\n" + before[1] + stores + "after\n"
    text, words = done.stdout.decode(), last_words(args, made)
    if not text.startswith(want) or not text.endswith("\n" + words) or views(image, sfdisk) != before:
        fail("a dry run prints the table before, the stores, the table after and the last words, and changes nothing", args, done)
    return text[len(want):-len(words)]


def whole(image, args, made, kept):
    """The change carried out, by the preload's log of the calls that write."""
    with tempfile.TemporaryDirectory() as folder:
        log = folder + "/log"
        done = run(*args, "--sector", image.size, log=log)
        trace = [line.split() for line in Path(log).read_text().splitlines()]
    if done.stdout.decode() != last_words(args, made) or done.stderr and "--overwrite-first" not in args:
        fail("done", args, done)
    want = [w for lba, _ in made.stores for w in (["pwrite", str(lba * image.size), str(image.size)], ["fsync", "0", "0"])]
    if trace != want:
        fail("each store is written in one call, and flushed before the next", args, trace)
    for lba, record in made.stores:
        if image.sector(lba) != record + kept[lba][512:]:
            fail("the record is stored, and the rest of its sector stays", args)
    return len(trace)


def half(image):
    """What a record cut in half reads as is nobody's promise; our two readers agree on it."""
    counts["half"] += 1
    listed = image.listed()
    if listed != m.listing(image.extract()):
        fail("the second program lists the same", listed)
    return image.table(), listed


def stop(image, args, how, at, cut, kept, stores):
    stopped = run(*args, "--sector", image.size, how=how, at=at, cut=cut)
    counts["stops"] += 1
    if how in ("fail", "cut", "once") and (stopped.stdout != b"failed\n" or not stopped.stderr):
        fail("a failure is said", args, how, at, cut, stopped)
    if how not in ("fail", "cut", "once") and (stopped.stdout or stopped.returncode != -9):
        fail("the program was stopped", args, how, at, cut, stopped)
    lba = stores[(at - 1) // 2][0]
    if how == "once" and image.sector(lba) != kept[lba]:
        fail("a sector cut short is put back", args, at, cut)
    if how == "once" and cut and b"was put back" not in stopped.stderr:
        fail("it is said that a sector was put back", args, at, cut, stopped)
    if image.sector(lba)[512:] != kept[lba][512:]:
        fail("the rest of a sector stays", args, how, at, cut)


def try_change(image, args, made, sfdisk=False):
    """One change: whole, then stopped in every way."""
    counts["changes"] += 1
    before = views(image, sfdisk)
    kept = {lba: image.sector(lba) for lba, _ in made.stores}
    shown = dry(image, args, made, before, sfdisk)
    calls = whole(image, args, made, kept)
    after = views(image, sfdisk)
    if shown != after[1]:
        fail("a dry run shows the listing after", args, shown, after[1])
    if after[0] != replay.contents_of(made.table):
        fail("the table after", args)
    if STRACE:
        put_back(image, kept)
        traced(args, image, made)
    # Under an emulator each run takes long.
    for how, at, cut in list(attempts(calls, image.size))[::5 if QUICK and x86.KIT else 1]:
        put_back(image, kept)
        stop(image, args, how, at, cut, kept, made.stores)
        if how == "torn" and at == calls - 1 and 0 < cut < 512:
            counts["other"] += half(image) not in (before[:2], after[:2])
        elif views(image, sfdisk) not in (before, after):
            fail("the table before or the table after", args, how, at, cut)
    put_back(image, kept)


def answered(f, *args):
    try:
        return f(*args)
    except m.Refusal as r:
        return r.number


def push(image, request, sfdisk=False):
    align, geometry, sys_, start, sectors = request
    made = answered(m.careful_push, image.extract(), *request, bytearray(1032))
    args = ["push", image.path, f"{sys_:02X}", start, sectors, "--align", align, "--geometry", "/".join(map(str, geometry))]
    if not isinstance(made, int):
        counts["gaps"] += replay.in_a_gap(m.read_table(image.extract()), made)
    if is_damaged(image):
        kept = image.table()
        said = run(*args, "--sector", image.size)
        if said.stdout != b"failed\n" or b"is no boot record and not empty" not in said.stderr or image.table() != kept:
            fail("a push stops before it overwrites what is no boot record", args, said)
        counts["damaged"] += 1
        args.append("--overwrite-first")
    judged(image, args, made, sfdisk)


def is_damaged(image):
    """Is the extended partition's first sector no EBR, and not empty?"""
    table = m.read_table(image.extract())
    extended = table.header.extended()
    return bool(extended and not table.logicals and extended.starting_lba < image.disk_size
                and any(image.sector(extended.starting_lba)[:512]))


def remove(image, number, sfdisk=False):
    made = answered(m.careful_removal, image.extract(), number, bytearray(1032))
    judged(image, ["remove", image.path, number], made, sfdisk)


def judged(image, args, made, sfdisk):
    if not isinstance(made, int):
        return try_change(image, args, made, sfdisk)
    counts["refused"] += 1
    said = run(*args, "--sector", image.size)
    if said.stdout.decode() != f"refused {made}\n" or f"refused {made}:" not in said.stderr.decode():
        fail("refused", made, args, said)


def from_sfdisk(folder, n):
    """An image with n logical partitions, made by sfdisk."""
    path = f"{folder}/s{n}.img"
    with open(path, "wb") as f:
        f.truncate(512 * 200000)
    script = ["label: dos", "2048,4096,83", "8192,180000,5"]
    at = 8192
    for _ in range(n):
        script.append(f"{at + 2048},2048,83")
        at += 4096
    done = subprocess.run([SFDISK, "-q", path], input="\n".join(script).encode(), stdout=subprocess.PIPE, stderr=subprocess.PIPE)
    if done.returncode != 0:
        fail("sfdisk makes an image", done.stderr.decode())
    image = Image(path, 512)
    marked(image, random.Random(n))
    return image


def marked(image, rng):
    """A mark of random bytes into every EBR with a partition: in one without sfdisk takes the mark for two entries. Where it
    looks for the type of a third and a fourth entry stands none of an extended partition."""
    for l in m.read_table(image.extract()).logicals:
        if l.partition.sys == 0:
            continue
        mark = bytearray(rng.randbytes(32))
        mark[4] = mark[20] = 0xDA
        record = image.sector(l.absolute_ebr_lba)
        image.put(l.absolute_ebr_lba, record[:478] + mark + record[510:])


def with_sfdisk(folder):
    for n in (0, 1, 3, 24) if QUICK else range(25):
        progress(f"station: image {n} of 24 made by sfdisk, {counts['stops']} stops")
        image = from_sfdisk(folder, n)
        # Without zones sfdisk leaves a first EBR without a partition, which is counted.
        if f"logical {n or 1}\n" not in image.listed():
            fail("all logical partitions of sfdisk's image are listed", n, image.listed())
        end = 8192 + (4096 * n or 2048)
        push(image, (2048, m.Geometry(0, 0, 0), 0x83, end, 6144), True)
        push(image, (2048, m.Geometry(1023, 255, 63), 0x07, end + 2048, 6144), True)
        for number in sorted({5, 5 + n // 2, 4 + n}):
            remove(image, number, True)
        if n == 0:
            behind_empty(image)
        if n in (3, 4, 12, 23, 24):
            into_gap(image, 5 + n // 2)
        os.unlink(image.path)


def behind_empty(image):
    """A push over a first EBR without a partition, which is refused. A zone put behind it; then another, and either removed."""
    push(image, (2048, m.Geometry(0, 0, 0), 0x83, 8192, 4096), True)
    for lba, record in m.careful_push(image.extract(), 2048, m.Geometry(0, 0, 0), 0x83, 10240, 4096, bytearray(1032)).stores:
        image.put(lba, record)
    push(image, (2048, m.Geometry(0, 0, 0), 0x83, 14336, 4096), True)
    for number in (5, 6):
        remove(image, number, True)


def into_gap(image, number):
    """A zone between two others removed; then pushes into the gap: all of it, its beginning, its end, and such as do not fit."""
    for lba, record in m.careful_removal(image.extract(), number, bytearray(1032)).stores:
        image.put(lba, record)
    logicals = m.read_table(image.extract()).logicals
    low, high = m.end_of(logicals, number - 6), logicals[number - 5].absolute_ebr_lba
    push(image, (1, m.Geometry(0, 0, 0), 0x83, low, high - low), True)
    push(image, (2, m.Geometry(1023, 255, 63), 0x07, low, 8), True)
    push(image, (1, m.Geometry(0, 0, 0), 0x82, high - 3, 3), True)
    for start, sectors in ((low - 1, 2), (low, high - low + 1), (high, 2)):
        push(image, (1, m.Geometry(0, 0, 0), 0x83, start, sectors), True)


def from_second(folder, rng):
    """An image of a disk that the second program generated, of any sector size, its other bytes not zero."""
    while True:
        disk = m.extract_disk(replay.sound_disk(rng))
        if disk.disk_size < 5 * 10 ** 6:
            break
    path = folder + "/g.img"
    with open(path, "wb") as f:
        f.truncate(disk.disk_size * disk.sector_size)
        for lba, record in disk.records.items():
            f.seek(lba * disk.sector_size)
            f.write(record + rng.randbytes(disk.sector_size - 512))
    return Image(path, disk.sector_size)


def with_second(folder, images):
    rng = random.Random(40)
    for n in range(1, images + 1):
        if n % 5 == 1 or sys.stderr.isatty():
            progress(f"station: image {n} of {images} made by the second program, {counts['stops']} stops")
        image = from_second(folder, rng)
        t = m.read_table(image.extract())
        for _ in range(3):
            push(image, replay.any_push(rng, t))
        for number in sorted(replay.numbers(rng, t)):
            remove(image, number)


def sizes(folder):
    """A size that is no whole number of sectors, or of too many, is refused 1 by every command; the largest is not."""
    path = folder + "/odd.img"
    for size, odd in ((512 * 100 + 1, True), (511, True), (512 << 32, True), ((512 << 32) - 512, False)):
        with open(path, "wb") as f:
            try:
                f.truncate(size)
            except OSError:
                continue
        for args in (("list", path), ("extract", path)):
            said = run(*args)
            if odd and (said.stdout or not said.stderr.startswith(b"refused 1:")):
                fail("refused 1", args, said)
            if not odd and said.stderr.startswith(b"refused 1:"):
                fail("not refused 1", args, said)
        for args in (("push", path, "83", 2048, 4096), ("remove", path, 5)):
            said = run(*args)
            if (said.stdout == b"refused 1\n") != odd or said.stderr.startswith(b"refused 1:") != odd:
                fail("refused 1 exactly for such a size", args, said)
    os.unlink(path)


def arguments(folder):
    """--help of each command; a disk that is not there."""
    every = run("--help").stdout
    for command in ("list", "extract", "push", "remove"):
        told = run(command, "--help")
        if told.stderr or not told.stdout.startswith(f"station {command} DISK".encode()) or told.stdout not in every:
            fail("--help", command, told)
        last = b"failed\n" if command in ("push", "remove") else b""
        absent = [command, folder + "/absent", *{"push": ("83", 2048, 4096), "remove": (5,)}.get(command, ())]
        for args in ([command], [*absent, "more"], [*absent, "--sector", 513], [*absent, "--sector"], absent):
            said = run(*args)
            if said.stdout != last or b"failed: " not in said.stderr:
                fail("a failure is said", args, said)


if __name__ == "__main__":
    with tempfile.TemporaryDirectory() as folder:
        arguments(folder)
        sizes(folder)
        if SFDISK:
            with_sfdisk(folder)
        with_second(folder, 4 if QUICK else 60)
    progress("")
    print("station: {changes} changes, {gaps} of them pushes into a gap, whole and then stopped {stops} times, and {refused} "
          "refusals hold; {damaged} pushes stopped before a damaged first sector".format(**counts))
    print("station: {half} of the stops left half a record in the sector that makes the change; {other} of them read as a third "
          "table".format(**counts))
    print("station: {traced} changes traced by strace: each store, then a flush answered 0, then the next".format(**counts)
          if STRACE else "station: the order of stores and flushes is by the preload's log")
    missing = [tool for tool, there in (("sfdisk", SFDISK), ("strace", STRACE)) if not there]
    if missing:
        print("station: skipped, there was no " + " and no ".join(missing))
