"""How Python starts an x86-64 program: as it is or, on another machine, under the emulator that ./machine names."""
import subprocess
from pathlib import Path

MACHINE = Path(__file__).resolve().parent / "machine"
KIT, EMULATOR = subprocess.run(["sh", "-c", '. "$0"; echo "$kit"; echo "${emulator-}"', str(MACHINE)], check=True,
                               stdout=subprocess.PIPE, text=True).stdout.splitlines()


def words(program, *args):
    """The words that start a program."""
    lib = KIT + "/lib"
    front = [EMULATOR, lib + "/ld-linux-x86-64.so.2", "--library-path", lib] if KIT else []
    return [*front, str(program), *map(str, args)]


def preloaded(library, program, *args):
    """The words that start it behind a library of its own, by the loader, and what the environment needs beside them."""
    if not KIT:
        return words(program, *args), {"LD_PRELOAD": library}
    return words("--preload", library, program, *args), {}
