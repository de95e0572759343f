"""What a session does to the files of its folders, as strace sees it, and a C program that makes just these calls."""
import os
import re
import shutil
import subprocess
import tempfile

from session import Session, TOP


class Folder:
    """A folder below the current one, for as long as it is used."""

    def __enter__(self):
        self.path = tempfile.mkdtemp(dir=".", prefix="disks-")
        return os.path.realpath(self.path)

    def __exit__(self, *_):
        shutil.rmtree(self.path)


PLACED = re.compile(r"lseek\(\d+<([^>]*)>, (\d+), SEEK_SET")
WRITTEN = re.compile(r"write\((\d+)<([^>]*)>, .*, (\d+)\) += (\d+)")
SYNCED = re.compile(r"f(?:data)?sync\(\d+<([^>]*)>\)")


def units_of(trace, folder):
    """The calls between one reply and the next that strace saw, where there are some, with paths in the folder."""
    units, unit, places = [], [], {}
    for line in open(trace):
        if placed := PLACED.search(line):
            places[placed[1]] = int(placed[2])
        elif (written := WRITTEN.search(line)) and written[1] == "1":
            if unit:
                units.append(unit)
            unit = []
        elif written and written[2].startswith(folder):
            unit.append(("w", places.get(written[2], 0), int(written[4]), os.path.relpath(written[2], folder)))
        elif synced := SYNCED.search(line):
            unit.append(("s", os.path.relpath(synced[1], folder)))
    return units


def traced(start, asked):
    """The units of a session that is asked by a function, on a copy of what is in a folder."""
    with Folder() as copy, tempfile.NamedTemporaryFile() as trace:
        shutil.copytree(start, copy, dirs_exist_ok=True)
        calls = ["-e", "trace=lseek,write,fsync,fdatasync", "-e", "signal=none"]
        strace = ["strace", "-f", "--seccomp-bpf", "-qq", "-y", "-s", "0", *calls, "-o", trace.name]
        asked(Session(copy, tracer=strace))
        return units_of(trace.name, copy)


class Calls:
    """The C program, which makes a unit's calls at a time, in a folder."""

    def __init__(self, folder, units):
        built = os.path.join(folder, "disk_calls")
        subprocess.run(["cc", "-O2", "-o", built, os.path.join(TOP, "bench", "disk_calls.c")], check=True)
        with open(os.path.join(folder, "list"), "w") as told:
            for unit in units:
                told.writelines(" ".join(map(str, call)) + "\n" for call in unit)
                told.write("u\n")
        for node in range(1, 9):
            os.makedirs(os.path.join(folder, f"ndb{node}"), exist_ok=True)
        self.running = subprocess.Popen([built, "list"], cwd=folder, stdin=subprocess.PIPE, stdout=subprocess.PIPE)

    def make(self):
        """The seconds that the next unit's calls take."""
        self.running.stdin.write(b"\n")
        self.running.stdin.flush()
        return int(self.running.stdout.readline()) / 1e9

    def end(self):
        """Ends it."""
        self.running.stdin.close()
        self.running.wait()
