"""Runs sessions, and judges how many growths the turns ask for that take no memory: none.

A turn goes from the last byte of one reply to the last byte of the next. In it the program reads a command and the
bytes that it announces, does it, and writes its reply. Such are the turns of `remove`, `status`, `stop` and refused
commands, but for the room for bytes that are wanted and then do not come. Refusals 6 and 7 are not among them: they are
told after the name of the module was formed. Nor are refusals 5 and 10 of `update` where bytes were read.
"""

ERROR = b'x: int = "a"\n'
LARGE = b"1048577\n" + b"\n" * 1_048_577
# Each session: commands, then the turns that are judged, each a command with its reply and its growths.
SESSIONS = [
    (
        b"status\n",
        [
            (b"status\n", b"files 0 bodies 0 rechecked 0\n", 0),
            (b"remove a.py\n", b"refused 4 absent\n", 0),
            (b"change a.py 13\n" + ERROR, b"refused 4 absent\n", 0),
            (b"\n", b"refused 1 command\n", 0),
            (b"check now\n", b"refused 1 command\n", 0),
            (b"add a.py x\n", b"refused 1 command\n", 0),
            (b"a" * 5000 + b"\n", b"refused 1 command\n", 0),
            (b"stop\n", b"ok\n", 0),
        ],
    ),
    (
        b"add a.py 13\n" + ERROR + b"check\n",
        [
            (b"status\n", b"files 1 bodies 2 rechecked 2\n", 0),
            (b"add a.py 13\n" + ERROR, b"refused 3 present\n", 0),
            (b"add ../b.py 13\n" + ERROR, b"refused 2 path\n", 0),
            (b"add b.py " + LARGE, b"refused 5 large\n", 0),
            (b"change b.py 13\n" + ERROR, b"refused 4 absent\n", 0),
            (b"change ../a.py 13\n" + ERROR, b"refused 2 path\n", 0),
            (b"change a.py " + LARGE, b"refused 5 large\n", 0),
            (b"update ../a.py\n", b"refused 2 path\n", 0),
            (b"update gone.py\n", b"refused 10 unreadable\n", 0),
            (b"remove ../a.py\n", b"refused 2 path\n", 0),
            (b"remove a.py\n", b"ok\n", 0),
            (b"remove a.py\n", b"refused 4 absent\n", 0),
            (b"status\n", b"files 1 bodies 2 rechecked 2\n", 0),
            (b"add ../a.py 10\nx=1\n", b"refused 8 truncated\n", 0),
        ],
    ),
    (
        b"add a.py 13\n" + ERROR + b"add a.pyi 0\ncheck\n",
        [
            (b"add a.pyi 13\n" + ERROR, b"refused 3 present\n", 0),
            (b"status\n", b"files 1 bodies 2 rechecked 2\n", 0),
            (b"remove a.pyi\n", b"ok\n", 0),
            (b"change a.pyi 13\n" + ERROR, b"refused 4 absent\n", 0),
        ],
    ),
    # the room for the ten bytes, which are wanted until the input ends
    (b"status\n", [(b"add a.py 10\nx=1\n", b"refused 8 truncated\n", 1)]),
    (b"status\n", [(b"add a.py 00000000000\n", b"refused 1 command\n", 0)]),
]


def judge_turns(program, tally):
    """Judges the turns of all these sessions."""
    for before, turns in SESSIONS:
        session = before + b"".join(command for command, _, _ in turns)
        replies = b"".join(reply for _, reply, _ in turns)
        output, growths = program.growths_by_byte(["session"], session)
        tally.judge(output.endswith(replies), f"after {before!r}: {output!r}")
        end = len(output) - len(replies)
        for command, reply, expected in turns:
            start, end = end, end + len(reply)
            count = growths[end - 1] - growths[start - 1]
            tally.judge(count == expected, f"after {before!r}: {count} growths in the turn of {command[:40]!r}")
