"""Runs stored sessions with each of their growths refused in turn.

Each file sessions/NAME.session is run with its first growth refused, then with its second, and so on, until a run in
which none was refused. (The growths before the first read are those of the words and the buffers, whatever the session:
all but the first session begin with the last of them.) Such a run writes sessions/NAME.stdout. Each other run does one of two:

- It reads nothing, writes nothing to standard output, tells on standard error that memory ran out, and ends with
  status 2.
- It writes the session in which exactly one command that takes memory (`add`, `change`, `update` or `check`) was
  answered `refused 9 memory`. A refused command changes nothing, so the rest of that session is what the program
  writes, with memory enough, for the session without that command.

Some of these other runs are made once more, with a longer session: before `stop` the commands that were refused are given
again in their order, and then `check` and `status`. Each is then answered as in the session without the refused command.

Each report that is so expected is also compared with that of a fresh session, which adds the files then present and
checks them.
"""

import functools
import re
from typing import NamedTuple

from preloaded import OUT_OF_MEMORY, SCRIPTS, Stop, growth_numbers

SESSIONS = SCRIPTS / "sessions"
REFUSAL = b"refused 9 memory\n"
# what is told where memory is refused before the first read, each with what it was wanted for
BEFORE_THE_FIRST_READ = {OUT_OF_MEMORY: "words", b"dmypy: out of memory\n": "buffers"}
# the commands that take memory, each with the refusals that are told only after memory was taken
LATE_REFUSALS = {"add": ("6", "7"), "change": (), "update": ("5", "6", "7", "10"), "check": ()}

# of the runs in which a growth is refused, each one of so many is made once more, with the longer session
AGAIN = 5


class Command(NamedTuple):
    """A command of a session: its word, its path if it has one, all its bytes, and those of the file that it brings."""

    word: str
    path: str
    text: bytes
    body: bytes


def commands_of(session):
    """The commands of a session."""
    commands = []
    while session:
        end = session.index(b"\n") + 1
        word, path, count, *_ = session[:end].decode().split() + ["", "", ""]
        stop = end + int(count) if word in ("add", "change") else end
        commands.append(Command(word, path, session[:stop], session[end:stop]))
        session = session[stop:]
    return commands


def session_of(commands):
    """The session with these commands."""
    return b"".join(command.text for command in commands)


def replies_of(output, commands):
    """The replies in an output, one for each command, in order."""
    replies = []
    for command in commands:
        is_report = command.word == "check" and not output.startswith(b"refused ")
        found = re.match(rb"(?:.*\n)*?status [01]\n" if is_report else rb".*\n", output)
        if not found:
            raise Stop(f"no reply to {command.text!r} in {output!r}")
        replies.append(found.group())
        output = output[found.end():]
    if output:
        raise Stop(f"more than the replies: {output!r}")
    return replies


def takes_memory(command, reply):
    """Whether memory can be refused to a command that has this reply when it is not."""
    if not reply.startswith(b"refused "):
        return command.word in LATE_REFUSALS
    return reply.decode().split()[1] in LATE_REFUSALS.get(command.word, ())


def is_done_again(place, commands, replies):
    """Whether the refused command stands again right after it, and is then done."""
    return commands[place + 1].text == commands[place].text and not replies[place + 1].startswith(b"refused ")


CHECK, STATUS = (Command(word, "", f"{word}\n".encode(), b"") for word in ("check", "status"))


def refused_commands(place, commands, replies, others):
    """The commands that are refused where the one at this place is refused memory, and else are not."""
    late = zip(commands[place + 1:], replies[place + 1:], others[place + 1:])
    return [commands[place]] + [it for it, reply, other in late if other != reply and other.startswith(b"refused ")]


def refused_place(output, variants):
    """The place of the refused command, if the output is that of a session with one refused command."""
    for place, replies in variants.items():
        if output == b"".join(replies):
            return place
    return None


class Answers:
    """What the program answers with memory enough."""

    def __init__(self, program):
        self.program = program

    @functools.lru_cache(maxsize=None)
    def replies(self, session):
        """The replies to a session."""
        done = self.program.run(["session"], session)
        if done.status != 0:
            raise Stop(f"status {done.status} of the session {session!r}")
        return replies_of(done.output, commands_of(session))

    def fresh_report(self, files):
        """The report of a fresh session that adds these files and checks them."""
        adds = [f"add {path} {len(body)}\n".encode() + body for path, body in sorted(files.items())]
        return self.replies(b"".join(adds) + b"check\n")[-1]

    def are_reports_fresh(self, commands, replies):
        """Whether each report in a session is that of a fresh session."""
        present = {}
        for command, reply in zip(commands, replies):
            if command.word == "check" and reply not in (REFUSAL, self.fresh_report(present)):
                return False
            if reply != b"ok\n":
                continue
            if command.word in ("add", "change"):
                present[command.path] = command.body
            elif command.word == "update":
                present[command.path] = (self.program.files / command.path).read_bytes()
            elif command.word == "remove":
                del present[command.path]
        return True

    def variants(self, commands, replies):
        """For each command that memory can refuse, by its place: the replies of the session in which it is refused."""
        variants = {}
        for place, (command, reply) in enumerate(zip(commands, replies)):
            if takes_memory(command, reply):
                others = self.replies(session_of(commands[:place] + commands[place + 1:]))
                variants[place] = others[:place] + [REFUSAL] + others[place:]
        return variants


class Sessions:
    """Runs of sessions, each judged. `seen` holds the kinds of refusal that occurred."""

    def __init__(self, program, tally):
        self.program = program
        self.answers = Answers(program)
        self.tally = tally
        self.seen = set()
        # the growth of each session that is refused first
        self.first = 1

    def judge_session(self, name, session, expected):
        """Judges the runs of one session."""
        commands = commands_of(session)
        replies = replies_of(expected, commands)
        variants = self.answers.variants(commands, replies)
        self.judge_fresh(name, commands, replies, variants)
        longer = self.longer_sessions(name, commands, replies, variants)
        for nth in growth_numbers(self.first):
            done = self.program.run(["session"], session, nth)
            if not done.output:
                self.first = nth
            if not done.was_refused:
                is_right = (done.output, done.told, done.status) == (expected, b"", 0)
                self.tally.judge(is_right, f"{name}, no growth refused: {done}")
                return
            place = self.judge_refused(done, f"{name}, growth {nth} refused: {done}", commands, variants)
            if place is not None and nth % AGAIN == 0:
                self.judge_again(f"{name}, growth {nth} refused, then given again", nth, longer[place])

    def longer_sessions(self, name, commands, replies, variants):
        """For each place of a command that memory can refuse: a session in which all that is then refused is given again, and
        what is written for it."""
        longer = {}
        end = len(commands) - (commands[-1].word == "stop")
        for place, others in variants.items():
            more = refused_commands(place, commands[:end], replies, others[:end]) + [CHECK, STATUS] + commands[end:]
            without = commands[:place] + commands[place + 1:end] + more
            answered = self.answers.replies(session_of(without))
            is_fresh = self.answers.are_reports_fresh(without, answered)
            self.tally.judge(is_fresh, f"{name}, command {place + 1} given again: a report is not the fresh one: {answered!r}")
            written = answered[:place] + [REFUSAL] + answered[place:]
            longer[place] = session_of(commands[:end] + more), b"".join(written)
        return longer

    def judge_again(self, where, nth, longer):
        """Judges a run of a session in which a growth is refused and all that was refused is given again."""
        session, written = longer
        done = self.program.run(["session"], session, nth)
        is_right = (done.output, done.told, done.status, done.was_refused) == (written, b"", 0, True)
        self.tally.judge(is_right, f"{where}: {done}")

    def judge_refused(self, done, where, commands, variants):
        """Judges a run of a session in which a growth was refused, and answers the place of the command that was."""
        if done.output == b"":
            kind = BEFORE_THE_FIRST_READ.get(done.told)
            self.tally.judge(kind is not None and done.status == 2 and done.count == 0, where)
            self.seen.add(kind)
            return None
        place = refused_place(done.output, variants)
        self.tally.judge(place is not None and done.told == b"" and done.status == 0, where)
        if place is not None:
            word = commands[place].word
            self.seen.add(word)
            if is_done_again(place, commands, variants[place]):
                self.seen.add(f"{word} again")
        return place

    def judge_fresh(self, name, commands, replies, variants):
        """Judges the reports that are expected of one session, with none and with each of its commands refused."""
        self.tally.judge(self.answers.are_reports_fresh(commands, replies), f"{name}: a report is not the fresh one")
        for place, others in variants.items():
            where = f"{name}, command {place + 1} refused: a report is not the fresh one: {others!r}"
            self.tally.judge(self.answers.are_reports_fresh(commands, others), where)

    def judge_seen(self):
        """Judges that each kind of refusal occurred."""
        for kind in BEFORE_THE_FIRST_READ.values():
            self.tally.judge(kind in self.seen, f"no session was refused its {kind}")
        for word in LATE_REFUSALS:
            self.tally.judge(word in self.seen, f"no session was refused at a command `{word}`")
            self.tally.judge(f"{word} again" in self.seen, f"no refused `{word}` was given again and done")


def judge_sessions(program, tally):
    """Judges the runs of all stored sessions."""
    sessions = Sessions(program, tally)
    for path in sorted(SESSIONS.glob("*.session")):
        sessions.judge_session(path.stem, path.read_bytes(), path.with_suffix(".stdout").read_bytes())
    sessions.judge_seen()
