"""A session of the program that is asked command by command, for what measures one. The program is that of the
variable PROGRAM, and else the one that the gate builds; it runs as `./ndb` does."""
import os
import subprocess
import time

TOP = os.path.dirname(os.path.dirname(os.path.realpath(__file__)))
PROGRAM = os.environ.get("PROGRAM", os.path.join(TOP, "crates", "ndb_shell", "out", "ndb_shell"))
SETTINGS = os.path.join(TOP, "crates", "ndb_shell", "settings.sh")
# The lines that a script has at most, and so many as, with their replies, fit into pipes.
LINES, CHUNK = 65_536, 128


class Session:
    """A program on the folders in a folder. It is told lines and gives their replies, or runs on a script's file."""

    def __init__(self, folder, words=(), tracer=(), script=None):
        command = ["bash", "-c", f'. "{SETTINGS}"; exec "$@"', "bash", *tracer, PROGRAM, *words]
        told, heard = (script, subprocess.DEVNULL) if script else (subprocess.PIPE, subprocess.PIPE)
        self.running = subprocess.Popen(command, cwd=folder, stdin=told, stdout=heard)

    def ask(self, line):
        """The one reply line of a command, and the seconds until it came."""
        begun = time.perf_counter()
        self.running.stdin.write(line.encode() + b"\n")
        self.running.stdin.flush()
        reply = self.running.stdout.readline().decode().rstrip("\n")
        return reply, time.perf_counter() - begun

    def put(self, rows):
        """Puts rows, each alone, and gives the seconds that took. Ends the program where one isn't committed."""
        begun = time.perf_counter()
        for at in range(0, len(rows), CHUNK):
            self.put_some(rows[at:at + CHUNK])
        return time.perf_counter() - begun

    def put_some(self, rows):
        """Puts as many rows as fit into pipes."""
        told = "".join(f"put {key} {value}\n" for key, value in rows)
        self.running.stdin.write(told.encode())
        self.running.stdin.flush()
        for key, _ in rows:
            replies = [self.running.stdout.readline().decode().rstrip("\n")]
            if replies[0] == "ok":
                replies.append(self.running.stdout.readline().decode().rstrip("\n"))
            if not replies[-1].startswith("committed "):
                raise NotCommitted(f"put {key}: {replies}", replies[-1])

    def rows(self, node):
        """The rows that a node has."""
        self.running.stdin.write(f"rows {node}\n".encode())
        self.running.stdin.flush()
        rows = {}
        for line in self.running.stdout:
            words = line.decode().split()
            if words[0] == "node" and len(words) == 4:
                return rows
            rows[words[0]] = words[1]
        raise SystemExit(f"rows {node}: the session ended")

    def end(self):
        """Ends the session, and gives the peak of its memory in KiB."""
        if self.running.stdin:
            self.running.stdin.close()
            self.running.stdout.read()
        _, status, usage = os.wait4(self.running.pid, 0)
        self.running.returncode = os.waitstatus_to_exitcode(status)
        if self.running.returncode != 0:
            raise SystemExit(f"the program ended with status {self.running.returncode}")
        return usage.ru_maxrss


class NotCommitted(Exception):
    """A put that wasn't committed, and its last reply."""

    def __init__(self, told, reply):
        super().__init__(told)
        self.reply = reply
