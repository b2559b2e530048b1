#!/usr/bin/env python3
"""Measures the built program: how long a session's commands take, and how much memory it holds at most.

    bench/session.py [PROGRAM]

For 100 and then for 1,000 made files of 200 lines, a session adds each file and then asks several times for a check and
for a status, through pipes, as an editor does. Each command is timed from its first byte sent to the last byte of its
reply, and the medians are printed in milliseconds; the first check is printed too. The lines a second of `add` are of
all adds together (a file is cut into its statements when it is added), those of `check` of the median check. The peak
memory is the program's VmHWM at the end.

Nothing is passed or failed: the numbers depend on the machine. The status is 1 where the program does not answer as it
must.
"""

import os
import statistics
import subprocess
import sys
import time
from pathlib import Path

from programs import Stop, status_of

PROGRAM = Path(__file__).resolve().parent.parent / "crates" / "dmypy" / "out" / "dmypy"
FILE_COUNTS = (100, 1_000)
LINES = 200
# one line in so many has an error
ERROR_EVERY = 40
CHECKS = 15
STATUSES = 200
MOST_READ = 1 << 20
GOOD_LINES = ("int = 3", "str = 'text'", "bool = True", "float = 2.5", "None = None", "float = 7")


def made_file(number):
    """A file of 200 lines with names of their own, a few of them with an error."""
    lines = []
    for line in range(LINES):
        if (line + number) % ERROR_EVERY == 0:
            lines.append(f"b{line}: str = 4\n")
        else:
            lines.append(f"a{line}: {GOOD_LINES[line % len(GOOD_LINES)]}\n")
    return "".join(lines).encode()


def ends_with_line(reply, start):
    """Whether a reply ends with a whole line that begins so."""
    return reply.endswith(b"\n") and reply.startswith(start, reply.rfind(b"\n", 0, -1) + 1)


class Session:
    """A session with the program, held through pipes."""

    def __init__(self, program):
        # its standard error stays that of this script
        self.process = subprocess.Popen([program, "session"], stdin=subprocess.PIPE, stdout=subprocess.PIPE)

    def ask(self, command, last_line):
        """Sends a command and reads its reply up to a line that begins so. Gives the reply, and the seconds it took."""
        reply = bytearray()
        start = time.perf_counter()
        self.process.stdin.write(command)
        self.process.stdin.flush()
        while not ends_with_line(reply, last_line):
            part = os.read(self.process.stdout.fileno(), MOST_READ)
            reply += part
            if not part or reply.startswith(b"refused "):
                raise Stop(f"{command[:60]!r} was answered {bytes(reply[-60:])!r}")
        return reply.decode(), time.perf_counter() - start

    def peak_memory(self):
        """The most memory that the program held so far, in KiB."""
        for line in Path(f"/proc/{self.process.pid}/status").read_text().splitlines():
            if line.startswith("VmHWM:"):
                return int(line.split()[1])
        raise Stop("no VmHWM in /proc")

    def close(self):
        """Ends the program, also where it does not stop by itself."""
        self.process.kill()
        self.process.communicate()


def add_command(number):
    body = made_file(number)
    return f"add folder{number % 10}/file{number}.py {len(body)}\n".encode() + body


def milliseconds(seconds):
    return f"{1000 * statistics.median(seconds):.3f} ms"


def measure(session, count):
    """Runs the commands of one session, and prints what they took."""
    commands = [add_command(number) for number in range(count)]
    adds = [session.ask(command, b"ok\n")[1] for command in commands]
    reports = [session.ask(b"check\n", b"status ") for _ in range(CHECKS)]
    answers = [session.ask(b"status\n", b"files ") for _ in range(STATUSES)]
    checks = [seconds for _, seconds in reports]
    summary = reports[-1][0].splitlines()[-2]
    if not summary.startswith(f"Found {count * LINES // ERROR_EVERY} errors in {count} files "):
        raise Stop(f"`check` was answered {summary!r}")
    lines = count * LINES
    rate = lines / statistics.median(checks)
    print(f"{count} files of {LINES} lines, {sum(map(len, commands))} bytes sent: {answers[-1][0].strip()}")
    print(f"  {summary}")
    print(f"  add     {milliseconds(adds)} (all {1000 * sum(adds):.3f} ms, {lines / sum(adds):,.0f} lines a second)")
    print(f"  check   {milliseconds(checks)}, {rate:,.0f} lines a second (first {1000 * checks[0]:.3f} ms)")
    print(f"  status  {milliseconds([seconds for _, seconds in answers])}")
    print(f"  memory  {session.peak_memory()} KiB at most", flush=True)
    session.ask(b"stop\n", b"ok\n")


def measure_all(program):
    """Measures a session of each number of files."""
    for count in FILE_COUNTS:
        session = Session(program)
        try:
            measure(session, count)
        finally:
            session.close()


def main():
    if len(sys.argv) > 2:
        print(__doc__)
        return 2
    program = sys.argv[1] if len(sys.argv) == 2 else PROGRAM
    return status_of(lambda: measure_all(program))


if __name__ == "__main__":
    sys.exit(main())
