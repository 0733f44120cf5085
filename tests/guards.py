"""What the station refuses though every theorem holds: python3 tests/guards.py STATION PROGRAM PRELOAD SFDISK [quick]

STATION is the script ./station, PROGRAM what it runs. A wrong sector size, a first sector that is no boot record, several programs
at once, a disk in use, a disk changed meanwhile; the words of arguments and of what is no disk; --dry-run and --save; the script
itself and a packed folder. Devices are loop devices, where the machine allows them. With quick there are fewer rounds.
"""
import fcntl
import os
import re
import shutil
import struct
import subprocess
import sys
import tempfile
import time
from pathlib import Path

HERE = Path(__file__).resolve().parent
sys.path.insert(0, str(HERE))
import x86  # noqa: E402

STATION, PROGRAM, PRELOAD = map(os.path.abspath, sys.argv[1:4])
SFDISK = sys.argv[4] if len(sys.argv) > 4 and sys.argv[4] else None
QUICK = sys.argv[5:] == ["quick"]
os.environ["PATH"] += ":/usr/sbin:/sbin"
skipped = []


def fail(what, *more):
    sys.exit(" ".join(["guards: not so:", what, *map(str, more)]))


def progress(what):
    sys.stderr.write(f"\r\033[K{what}" if sys.stderr.isatty() else what + "\n")
    sys.stderr.flush()


def station(*args, **more):
    done = subprocess.run([STATION, *map(str, args)], stdout=subprocess.PIPE, stderr=subprocess.PIPE, **more)
    return done.returncode, done.stdout.decode(), done.stderr.decode()


def program(*args):
    done = subprocess.run(x86.words(PROGRAM, *args), stdout=subprocess.PIPE, stderr=subprocess.PIPE, stdin=subprocess.DEVNULL)
    return done.stdout.decode(), done.stderr.decode()


def expect(args, status, out, *words):
    """A run of the script: its status, its last word on standard output, and words on standard error."""
    done = station(*args)
    last = done[1].splitlines()[-1:] or [""]
    if done[0] != status or (out is not None and last != [out]) or not all(w in done[2] for w in words):
        fail(f"status {status}, {out!r} and {words}", args, done)
    return done


# ---------------------------------------------------------------- images


def entry(kind, start, sectors, flag=0):
    return struct.pack("<B3sB3sII", flag, b"", kind, b"", start, sectors) if kind else bytes(16)


def record(*entries):
    return bytes(446) + b"".join(entries).ljust(64, b"\0") + b"\x55\xaa"


def make(path, size=512, sectors=40960, zones=3, extended=(8192, 30000), primary=(2048, 4096)):
    """An image with a primary partition, and an extended one with so many zones of 2,048 sectors, each behind 2,048."""
    x, length = extended
    with open(path, "wb") as f:
        f.truncate(size * sectors)
        f.write(record(entry(0x83, *primary), entry(0x05, x, length)))
        for n in range(zones):
            link = entry(0x05, 4096 * (n + 1), 4096) if n + 1 < zones else bytes(16)
            f.seek((x + 4096 * n) * size)
            f.write(record(entry(0x83, 2048, 2048), link))
    return path


def poke(path, at, data):
    with open(path, "r+b") as f:
        f.seek(at)
        f.write(data)


def content(path):
    return Path(path).read_bytes()


def zones(path, *more):
    """Start and type of each logical partition."""
    rows = [line.split() for line in station("list", path, *more)[1].splitlines()[1:]]
    return [(int(start), kind) for number, kind, _, start, _ in rows if int(number) >= 5]


# ---------------------------------------------------------------- what is refused


def sector_size(folder):
    """On an image of 4,096-byte sectors the size must be named."""
    for size in (1024, 2048, 4096):
        path = make(f"{folder}/size.img", size, 20480, 1, (8448, 8192), (256, 8192))
        poke(path, 8448 * 512, os.urandom(512))
        before = content(path)
        for args in (("list", path), ("extract", path)):
            expect(args, 2, "", "failed: with sectors of 512 bytes", f"with {size} it has one")
        for args in (("push", path, "83", 8448, 4096), ("push", path, "83", 8448, 4096, "--dry-run"), ("remove", path, 5)):
            expect(args, 2, "failed", "failed: with sectors of 512 bytes", f"with {size} it has one")
        if content(path) != before:
            fail("nothing is stored with a wrong sector size")
        expect(("list", path, "--sector", size), 0, "5 83 00 10496 2048")
        expect(("push", path, "83", 12544, 4096, "--align", 256, "--sector", size), 0, "done")


def first_sector(folder):
    """A first EBR without 55 AA, or with a wrong flag, is not overwritten but on demand."""
    for at, data in ((510, b"\0\0"), (446, b"\x01")):
        path = make(folder + "/first.img")
        poke(path, 8192 * 512 + at, data)
        before = content(path)
        told = expect(("list", path), 0, "2 05 00 8192 30000", "warning: sector 8192", "sfdisk may still show zones", "first entry")
        if told[1] != "disk 40960 align 2048 logical 0\n1 83 00 2048 4096\n2 05 00 8192 30000\n":
            fail("the listing is the scope document's", told)
        for more in ((), ("--dry-run",)):
            expect(("push", path, "83", 8192, 4096, *more), 2, "failed", "sector 8192", "--overwrite-first goes on")
        if content(path) != before:
            fail("nothing is stored over what is no boot record")
        expect(("push", path, "83", 8192, 4096, "--overwrite-first"), 0, "done", "warning: sector 8192")
        if zones(path) != [(10240, "83")]:
            fail("with the option it goes on", zones(path))
    path = make(folder + "/first.img", zones=0)
    if expect(("push", path, "83", 8192, 4096), 0, "done")[2]:
        fail("an empty first sector needs no word")


def one_at_a_time(folder):
    """The lock: a second change fails at once, and of several at once each that says done is on the disk."""
    path = make(folder + "/lock.img")
    with open(path, "rb") as held:
        fcntl.flock(held, fcntl.LOCK_EX)
        began = time.monotonic()
        expect(("remove", path, 5), 2, "failed", "another program holds the lock")
        if time.monotonic() - began > 5:
            fail("the second change fails at once")
        expect(("remove", path, 5, "--dry-run"), 0, "done")
        expect(("list", path), 0, "7 83 00 18432 2048")
    done = subprocess.run([STATION, "list", path], stdout=subprocess.PIPE, stderr=subprocess.PIPE,
                          preexec_fn=lambda: os.close(1))
    if done.returncode == 0:
        fail("a listing without standard output is a failure", done)
    out, err = program("remove", path, 5)
    if out != "failed\n" or "nobody holds the disk's lock" not in err or len(zones(path)) != 3:
        fail("the program alone changes nothing", out, err)
    rounds = (5 if x86.KIT else 20) if QUICK else 200
    empty = content(make(folder + "/empty.img", sectors=80000, zones=1, extended=(8192, 70000)))
    for several in (2, 8):
        done = busy = 0
        for n in range(rounds):
            if n % 20 == 0:
                progress(f"guards: round {n} of {rounds} of {several} programs at once")
            Path(path).write_bytes(empty)
            runs = [subprocess.Popen([STATION, "push", path, f"{0x70 + i:02x}", str(12288 + 4096 * i), "4096"],
                                     stdout=subprocess.PIPE, stderr=subprocess.PIPE) for i in range(several)]
            ended = [run.communicate() for run in runs]
            listed = zones(path)
            for i, (out, err) in enumerate(ended):
                is_done = out.endswith(b"\ndone\n")
                if is_done != ((14336 + 4096 * i, f"{0x70 + i:02X}") in listed):
                    fail("what says done is on the disk, and nothing else", i, out, err, listed)
                done += is_done
                busy += b"holds the lock" in err
        print(f"guards: {rounds} rounds of {several} programs at once: {done} said done, and each is on the disk; {busy} found the lock"
              " held")


def changed_meanwhile(folder):
    """A record that another hand changes between the collecting and the first store."""
    path = make(folder + "/meanwhile.img")
    before, tried = content(path), 0
    for byte in (100, 8192 * 512 + 100, 12288 * 512 + 446 + 12):
        for at in range(1, 12):
            Path(path).write_bytes(before)
            words, more = x86.preloaded(PRELOAD, PROGRAM, "push", path, "83", 20480, 4096)
            with open(path, "rb") as disk:
                fcntl.flock(disk, fcntl.LOCK_EX)
                os.dup2(disk.fileno(), 9)
            env = dict(os.environ, **more, STATION_CHANGE=path, STATION_PREAD=str(at), STATION_BYTE=str(byte))
            done = subprocess.run(words, env=env, pass_fds=(9,), stdout=subprocess.PIPE, stderr=subprocess.PIPE)
            os.close(9)
            now = content(path)
            meddled = bytearray(before)
            meddled[byte] = 0x5A
            if b"changed meanwhile" in done.stderr:
                tried += 1
                if done.stdout != b"failed\n" or now != bytes(meddled):
                    fail("a disk that was changed meanwhile is left as it is", byte, at, done)
            elif done.stdout.endswith(b"done\n") and now[byte] != 0x5A:
                fail("what another hand wrote is not overwritten", byte, at, done)
    if tried < 6:
        fail("changes between the two readings are noticed", tried)
    print(f"guards: {tried} changes by another hand between the two readings were noticed, and nothing was stored")


def words(folder):
    """What each argument error and each thing that is no disk is called."""
    path = make(folder + "/words.img")
    push = ("push", path, "83", 20480, 4096)
    for args, said in (
        ((), "the command is missing, expected list"),
        (("liste",), "the command is 'liste', expected list"),
        (("list",), "DISK is missing"),
        (("push", path), "TYPE is missing, expected two hex digits"),
        (("push", path, "8x", 1, 1), "TYPE is '8x', expected two hex digits"),
        (("push", path, "83", "1k", 1), "START is '1k', expected a whole number"),
        (("push", path, "83", 20480), "SECTORS is missing"),
        (("push", path, "83", 1, 4294967296), "SECTORS is '4294967296'"),
        (("remove", path, "five"), "NUMBER is 'five'"),
        ((*push, "--sektor", 512), "'--sektor' is not understood, expected an option"),
        ((*push, "more"), "'more' is not understood, expected an option"),
        ((*push, "--sector", 513), "'513', expected 512, 1024, 2048 or 4096"),
        ((*push, "--sector"), "expected 512, 1024, 2048 or 4096"),
        ((*push, "--align", "x"), "the word behind --align is 'x', expected a whole number"),
        ((*push, "--geometry", "1/2"), "the word behind --geometry is '1/2', expected C/H/S"),
        ((*push, "--align", 1, "--align", 2), "--align is given twice"),
        ((*push, "--save"), "expected the name of a new file"),
        ((*push, "--save", "--in-use"), "'--in-use', expected the name of a new file"),
        ((*push, "--save", folder + "/s", "--dry-run"), "do not go together"),
        (("remove", path, 5, "--align", 1), "'--align' is not understood"),
        (("list", path, "--dry-run"), "'--dry-run' is not understood"),
        (("list", folder + "/absent"), "there is no"),
        (("list", folder), "is a directory"),
        (("remove", folder, 5), "is a directory"),
        (("list", "/dev/zero"), "is a device without an end"),
    ):
        expect(args, 2, None, "failed: ", said)
    for args, said in ((("list", folder), "a directory"), (("list", "/dev/zero"), "without an end"), (("list", "/dev/stdin"), "")):
        out, err = program(*args)
        if out or said not in err:
            fail(said, args, out, err)
    os.mkfifo(folder + "/pipe")
    expect(("list", folder + "/pipe"), 2, "", "is a pipe")
    out = subprocess.run(x86.words(PROGRAM, "list", "/dev/stdin"), stdin=subprocess.PIPE, stdout=subprocess.PIPE, stderr=subprocess.PIPE)
    if b"is a pipe" not in out.stderr:
        fail("a pipe has its own word", out)
    with open(folder + "/odd.img", "wb") as f:
        f.truncate(51201)
    expect(("list", folder + "/odd.img"), 1, "", "refused 1: the size is no whole number of sectors")
    with open(folder + "/odd.img", "wb") as f:
        try:
            f.truncate(512 << 32)
        except OSError:
            skipped.append("an image of too many sectors (no room for its size)")
        else:
            expect(("list", folder + "/odd.img"), 1, "", "refused 1: more than 4294967295 sectors")
    for name in (b"z\xc3\xa4hne.img", b"\xe4.img"):
        odd = make(os.fsdecode(folder.encode() + b"/" + name))
        expect(("list", odd), 0, "7 83 00 18432 2048")
        expect(("remove", odd, 5, "--dry-run"), 0, "done")
        expect(("remove", odd, 5), 0, "done")
        expect(("list", odd), 0, "6 83 00 18432 2048")
    make(path)
    poke(path, 12288 * 512 + 462, entry(0x05, 4096, 4096))
    expect(("list", path), 1, "", "refused 5: a link leads back: likely a chain not in disk order, as fdisk and parted leave it")
    poke(path, 446, entry(0xEE, 1, 40959) + bytes(48))
    expect(("list", path), 0, "1 EE 00 1 40959", "warning: this disk has a GUID partition table")
    help_text = station("--help")
    for args in (("-h",), ("list", path, "--help"), ("push", "-h"), ("remove", path, 5, "--in-use", "--help"), ("--version",)):
        done = station(*args)
        if done[0] or done[2] or not done[1] or args[0] != "--version" and done[1] not in help_text[1]:
            fail("help works anywhere", args, done)


def previews(folder):
    """--dry-run to where nothing can be written; --save."""
    path = make(folder + "/save.img")
    before = content(path)
    with open("/dev/full", "wb") as full:
        for args in (("push", path, "83", 20480, 4096, "--dry-run"), ("list", path), ("extract", path)):
            done = subprocess.run([STATION, *map(str, args)], stdout=full, stderr=subprocess.PIPE)
            if done.returncode != 2 or b"failed: standard output cannot be written" not in done.stderr:
                fail("output that cannot be written is a failure", args, done)
        copy = folder + "/copy.img"
        Path(copy).write_bytes(before)
        done = subprocess.run([STATION, "remove", copy, "5"], stdout=full, stderr=subprocess.PIPE)
        if done.returncode != 2 or b"the word done cannot be written" not in done.stderr or len(zones(copy)) != 2:
            fail("a word that cannot be written is a failure", done)
    extract = subprocess.run([STATION, "extract", path], stdout=subprocess.PIPE).stdout
    for name in (folder + "/no/such", path, folder):
        expect(("remove", path, 5, "--save", name), 2, "failed", "nothing was stored on the disk")
        if content(path) != before:
            fail("no store without the extract")
    log = folder + "/log"
    words, more = x86.preloaded(PRELOAD, PROGRAM, "remove", path, 5, "--save", folder + "/kept")
    with open(path, "rb") as disk:
        fcntl.flock(disk, fcntl.LOCK_EX)
        os.dup2(disk.fileno(), 9)
    done = subprocess.run(words, env=dict(os.environ, **more, STATION_LOG=log), pass_fds=(9,), stdout=subprocess.PIPE)
    os.close(9)
    calls = [line.split()[0] for line in Path(log).read_text().splitlines()]
    if done.stdout != b"done\n" or content(folder + "/kept") != extract or calls != ["fsync", "fsync", "pwrite", "fsync"]:
        fail("the extract is kept and flushed before the first store", done, calls)


# ---------------------------------------------------------------- devices


def tool(*args):
    return subprocess.run(args, stdout=subprocess.PIPE, stderr=subprocess.PIPE, text=True)


class Loop:
    """A loop device over an image, or nothing where the machine allows none."""

    def __init__(self, path, size):
        self.name = None
        if shutil.which("losetup"):
            done = tool("losetup", "-f", "--show", "-P", "-b", str(size), path)
            self.name = done.stdout.strip() or None

    def __enter__(self):
        return self.name

    def __exit__(self, *_):
        if self.name:
            tool("partx", "-d", self.name)
            tool("losetup", "-d", self.name)


def partition(device, n):
    """The device of a partition, made by the system or by partx; None where there is none."""
    name = f"{device}p{n}"
    if not os.path.exists(name):
        tool("partx", "-a", device)
    return name if os.path.exists(name) else None


def devices(folder):
    for size, other in ((512, 4096), (4096, 512)):
        path = make(f"{folder}/device.img", size, 40960, 1)
        with Loop(path, size) as device:
            if not device:
                return skipped.append("devices (no loop device could be made)")
            expect(("list", device), 0, "5 83 00 10240 2048")
            expect(("list", device, "--sector", size), 0, "5 83 00 10240 2048")
            for args in (("list", device), ("remove", device, 5), ("push", device, "83", 12288, 4096)):
                expect((*args, "--sector", other), 2, None, f"--sector says {other}", f"own sector size is {size}")
            expect(("push", device, "83", 12288), 2, "failed", "SECTORS is missing")
            expect(("remove", path, 5, "--sector", size), 2, "failed", f"it lies behind {device}")
            expect(("push", device, "83", 12288, 4096), 0, "done")
            if zones(device) != [(10240, "83"), (14336, "83")]:
                fail("a push on a device", zones(device))
            with open(device, "rb") as held:
                fcntl.flock(held, fcntl.LOCK_EX)
                expect(("remove", device, 5), 2, "failed", "another program holds the lock")
            if SFDISK and tool(SFDISK, "--help").stdout.find("--lock") >= 0:
                with open(device, "rb") as held:
                    fcntl.flock(held, fcntl.LOCK_EX)
                    done = subprocess.run([SFDISK, "--lock=nonblock", device], input="", stdout=subprocess.PIPE, stderr=subprocess.PIPE,
                                          text=True)
                    if done.returncode == 0:
                        fail("sfdisk --lock respects the same lock", done)
            in_use(folder, device, size)


def in_use(folder, device, size):
    """A mounted partition, and one that is swap."""
    part = partition(device, 5)
    if not part:
        return skipped.append(f"a disk in use (no partition device on {device})")
    place = folder + "/place"
    os.makedirs(place, exist_ok=True)
    made = shutil.which("mkfs.ext4") and tool("mkfs.ext4", "-q", "-F", part).returncode == 0
    if made and tool("mount", part, place).returncode == 0:
        try:
            before = zones(device)
            expect(("remove", device, 5), 2, "failed", f"{part} is mounted on {place}", "--in-use goes on")
            if zones(device) != before:
                fail("a disk in use is not changed")
            expect(("remove", part, 5), 2, "failed", "is a partition of " + device)
            expect(("push", device, "83", 16384, 4096, "--in-use"), 0, "done", "warning: the system would not read the table")
        finally:
            tool("umount", place)
    else:
        skipped.append(f"a mounted partition with sectors of {size} bytes (no file system could be mounted)")
    part = partition(device, 5)
    if part and shutil.which("mkswap") and tool("mkswap", part).returncode == 0 and tool("swapon", part).returncode == 0:
        try:
            expect(("remove", device, 5), 2, "failed", f"{part} is swap")
        finally:
            tool("swapoff", part)
    else:
        skipped.append(f"swap with sectors of {size} bytes (no swap could be turned on)")
    part = partition(device, 5)
    if part and shutil.which("dmsetup") and tool("dmsetup", "create", "station-test", "--table", f"0 64 linear {part} 0").returncode == 0:
        try:
            expect(("remove", device, 5), 2, "failed", f"{part} is held by dm-")
        finally:
            tool("dmsetup", "remove", "station-test")
    else:
        skipped.append(f"a held partition with sectors of {size} bytes (no device could be mapped)")
    expect(("remove", device, 5), 0, "done")


# ---------------------------------------------------------------- the script


def script(folder):
    """The script through a link, in another folder, and with a program older than a source."""
    path = make(folder + "/script.img")
    listing = station("list", path)
    os.symlink(STATION, folder + "/linked")
    os.symlink("linked", folder + "/twice")
    done = subprocess.run([folder + "/twice", "list", "script.img"], cwd=folder, stdout=subprocess.PIPE)
    if done.returncode or done.stdout.decode() != listing[1]:
        fail("the script works through a link", done)
    if (Path(STATION).parent / "crates").is_dir():
        rebuilt(folder, path, listing)
        packed(folder, path, listing)


def rebuilt(folder, path, listing):
    """In a copy of the tree with a false rt: what is built, and when."""
    root, copy = Path(STATION).parent, Path(folder + "/tree")
    for name in ("crates", "tests"):
        shutil.copytree(root / name, copy / name, ignore=shutil.ignore_patterns("out"))
    for name in ("station", "crates.txt"):
        shutil.copy2(root / name, copy / name)
    (copy / "tools").mkdir()
    rt = copy / "tools" / "rt"
    # It is started in the program's folder; the program stays in out/.
    rt.write_text(f'#!/bin/sh\nset -e\ncase $1 in doc) exec "{shutil.which("rt") or "false"}" doc ;; esac\necho "$(basename "$PWD") $@" >>"{copy}/asked"\n'
                  'for n in base record_chs station_disk; do echo "crate $n: modules loaded=1 checked=2"; echo more; done\n'
                  f'mkdir -p out && cp "{PROGRAM}" out/station\n')
    rt.chmod(0o755)
    env = dict(os.environ, PATH=f"{copy}/tools:" + os.environ["PATH"])
    run = lambda *args: subprocess.run([str(copy / "station"), *args], env=env, stdout=subprocess.PIPE, stderr=subprocess.PIPE)
    asked = lambda: (copy / "asked").read_text().count("station run") if (copy / "asked").exists() else 0
    told = [run("--help").stdout, run("push", "-h").stdout, run("--version").stdout]
    if asked() or told != [station(*args)[1].encode() for args in (("--help",), ("push", "-h"), ("--version",))]:
        fail("help needs no build", told)
    edit = next((copy / "crates/station_disk").rglob("*.antt")).relative_to(copy)
    for want, touched in ((1, None), (1, None), (2, "crates/base/src/lib.rt"), (2, "tests/run"), (3, edit), (4, "crates.txt")):
        if touched:
            then = time.time() + 5 * want
            os.utime(copy / touched, (then, then))
        done = run("list", path)
        if done.returncode or done.stdout.decode() != listing[1] or asked() != want:
            fail("it is built when a source is newer", want, touched, asked(), done)
        if touched:
            os.utime(copy / "crates/station/out/station", (then, then))
        if len(done.stderr.splitlines()) > 3 or not (copy / "target/station.log").read_text().count("more"):
            fail("the build shows a line that counts, and has the rest in a log", done.stderr)
    rt.write_text("#!/bin/sh\necho broken\nexit 1\n")
    os.utime(copy / "crates.txt", (time.time() + 60, time.time() + 60))
    done = run("list", path)
    if done.returncode != 2 or b"failed: the program could not be built" not in done.stderr:
        fail("a build that fails is said", done)


def packed(folder, path, listing):
    if not shutil.which("rt"):
        return skipped.append("a packed folder (there is no rt)")
    done = subprocess.run([str(Path(STATION).parent / "pack"), folder + "/packed"], stdout=subprocess.PIPE, stderr=subprocess.PIPE)
    if done.returncode:
        fail("a packed folder is made", done)
    moved = folder + "/else where"
    os.rename(folder + "/packed", moved)
    bare = {"PATH": "/usr/bin:/bin"}
    run = lambda *args: subprocess.run([moved + "/station", *args], env=bare, cwd="/", stdout=subprocess.PIPE, stderr=subprocess.PIPE)
    done = run("list", path)
    if done.returncode or done.stdout.decode() != listing[1]:
        fail("a packed folder lists", done)
    done = run("remove", path, "5")
    if done.returncode or done.stdout != b"done\n":
        fail("a packed folder changes", done)


if __name__ == "__main__":
    with tempfile.TemporaryDirectory() as folder:
        for test in (sector_size, first_sector, words, previews, changed_meanwhile, devices, script, one_at_a_time):
            progress(f"guards: {test.__name__}")
            test(folder)
    progress("")
    print("guards: a wrong sector size, a damaged first sector, a held lock, a changed disk, arguments, previews and the script hold")
    if skipped:
        print("guards: skipped: " + "; ".join(skipped))
