#!/usr/bin/env python3
"""Adds answers that name lemmas to the proofs of crates: `name_lemmas.py [--libraries FOLDER] [--least SECONDS] CRATE..`.

The prover looks for the proof of a goal without an answer first without lemmas, and last by the sets that a function's
attribute names. Here a crate is checked, and each function, or cycle of calls, whose proof took SECONDS (1 if not named), or of
which the gate tries a must-fail edit, gets an answer for each goal without one: `first_of (grind (arith, SETS), search rules)`,
with the sets of its attribute, or with `common_steps`. One that the prover refuses is tried in other ways (`WAYS`), and then
taken out, so that at the end the crate is proved as before. The libraries that it stands on are those that `rt ci` left in
FOLDER/NAME/out; FOLDER is `crates` where it is not named."""

import argparse
import json
import re
import subprocess
import sys
import tempfile
from pathlib import Path

ROOT = Path(__file__).resolve().parents[2]
sys.path.insert(0, str(ROOT / "scripts" / "gate"))
from edit import edits_of  # noqa: E402
from repository import libraries  # noqa: E402
from source import cycles_of, ends_alike, functions, key_of  # noqa: E402
from trial import words  # noqa: E402

STD = "Rattle.std.proofs.Common"
STEPS = ("Rattle.std.proofs.lemmas.Grind", "common_steps")
# The ways to answer a goal, one tried after another, with what each brings in besides the sets of the attribute.
WAYS = (
    ("first_of (grind (arith, {sets}), search rules)", []),
    ("first_of (grind (arith, common_steps, {sets}), search rules)", [STEPS]),
)
# A goal that an answer of a set of lemmas may prove: what is returned, and that a loop's invariant holds when it begins.
LISTED_GOAL = r"(\w+-)?(returns|loop-\w+-init)"
REFUSED = r"(?m)^(?:\./)?(proofs/\S+/Answers\.antt):\d+:\d+: error: `([^`]+)`: (.*)$"


def check(command, folder, kept):
    """Checks a crate, and returns what the prover said."""
    ran = subprocess.run(
        [*command, "--incremental", kept], cwd=folder, stdout=subprocess.PIPE, stderr=subprocess.STDOUT, text=True
    )
    return ran.stdout


def head_of(file):
    """Returns the head of a proof that a check kept, which lists what it brings in and its names."""
    return file.read_bytes()[: 1 << 21].decode("utf-8", "replace")


def proofs_in(kept):
    """Returns the path of each proof that a check kept, with the seconds that it took, as they were kept one after another."""
    files = sorted(Path(kept).glob("antt*/*.oantt"), key=lambda it: it.stat().st_mtime_ns)
    times = [it.stat().st_mtime_ns / 1e9 for it in files]
    return {it: time - before for it, before, time in zip(files[1:], times, times[1:]) if it.name.endswith(".Proof.oantt")}


def goals_of(file):
    """Returns the goals of a proof that a check kept."""
    listed = re.search(r'"exports":(\[.*?\]),"globals"', head_of(file))
    return [it["spelling"] for it in json.loads(listed[1])] if listed else []


def imported(crate, path):
    """Returns the module and the name of a path of an attribute."""
    first, *rest, name = path.strip().split("::")
    return ".".join(["Rattle", crate if first == "crate" else first, *rest]), name


def attributes(crate, folder):
    """Returns for each function of a crate, by its path, its name, its cycle of calls or None, and the sets and the definitions
    to unfold of its attribute, or of its file's."""
    found = {}
    for file in sorted(folder.glob("src/**/*.rt")):
        text = file.read_text(encoding="utf-8")
        lines = text.split("\n")
        for begin, end, path in functions(str(file.relative_to(folder)), text):
            whole = "\n".join(lines[begin - 1 : end])
            said = re.search(r"#\[tactic\(auto(.*)\)\]\n", whole) or re.search(r"#!\[tactic\(auto(.*)\)\]\n", text)
            named = {it: re.search(rf"{it}\(([^)]*)\)", said[1] if said else "") for it in ("using", "unfolding")}
            sets, unfolded = ([imported(crate, one) for one in it[1].split(",")] if it else [] for it in named.values())
            cycle = re.search(r"#\[cycle\((\w+)\)\]", whole)
            found[path] = (path.rpartition("::")[2], cycle and cycle[1], sets or [STEPS], unfolded)
    return found


def with_imports(text, names):
    """Returns a file of answers with these names brought in from their modules."""
    for module, name in names:
        line = re.search(rf"(?m)^use {re.escape(module)}\.\{{(.*)\}}$", text)
        if line is None:
            text = f"use {module}.{{{name}}}\n{text}"
        elif name not in [it.strip() for it in line[1].split(",")]:
            text = text.replace(line[0], f"use {module}.{{{line[1]}, {name}}}")
    return text


class Answer:
    """An answer of a goal by sets of lemmas, in one of the ways."""

    def __init__(self, file, goal, owner, context):
        self.file, self.goal, self.context, self.way = file, goal, context, 0
        _, _, self.sets, self.unfolded = owner

    def names(self):
        """Returns what the answer brings in, by module and name."""
        return [*dict.fromkeys([*self.unfolded, *self.sets, *WAYS[self.way][1], (STD, "arith"), (STD, "rules")])]

    def has_a_way(self):
        """Returns whether there is such a way, in which no two sets have one name."""
        return self.way < len(WAYS) and len({name for _, name in self.names()}) == len(self.names())

    def text(self):
        """Returns the answer as it stands in its file."""
        how, more = WAYS[self.way]
        unfolding = f"unfolding {' '.join(name for _, name in self.unfolded)}\n" if self.unfolded else ""
        lemmas = ", ".join(name for it in self.sets if it not in more for name in it[1:])
        how = how.format(sets=lemmas).replace(", )", ")")
        return f"\npub {self.goal} : goal.{self.goal}\n{unfolding}{self.goal} {self.context} = {how}\n"


def new_answers(crate, folder, path, proof, known):
    """Returns an answer for each goal of a function, or of a cycle of calls, that has none."""
    last = path.rpartition(".")[2]
    # (a function that calls itself is a cycle by itself, which has its name)
    own = known.get(key_of(known, path.replace("+", "")))
    members = [it for it in known.values() if it[1] and f"+{it[1]}" == last] or ([own] if own else [])
    file = folder / "proofs" / path.replace(".", "/") / "Answers.antt"
    text = file.read_text(encoding="utf-8") if file.is_file() else ""
    as_before = re.search(r"(?m)^\S+ ((?:g )?(?:t )?c) =", text)
    ghosts = "g " if "--@ import denote.Param.Laws " in head_of(proof) else ""
    context = as_before[1] if as_before else ghosts + ("t c" if last.startswith("+") else "c")
    found = []
    for goal in goals_of(proof):
        owners = [it for it in members if it is own or goal.startswith(f"{it[0]}-")]
        owner = max(owners, key=lambda it: len(it[0]), default=None)
        has_answer = re.search(rf"(?m)^pub {re.escape(goal)} :", text)
        if owner and not has_answer and re.match(LISTED_GOAL, goal) and "requires" not in goal:
            found.append(Answer(file, goal, owner, context))
    return found


def write(crate, folder, before, answers):
    """Writes the files of answers, as each was before and with these."""
    for file, text in before.items():
        added = [it for it in answers if it.file == file]
        path = ".".join(file.parent.relative_to(folder / "proofs").parts)
        whole = text or f"use Rattle.{crate}.proofs.{path}.Goals as goal\n"
        for it in added:
            whole = with_imports(whole, it.names()).rstrip("\n") + "\n" + it.text()
        if added or text:
            file.parent.mkdir(parents=True, exist_ok=True)
            file.write_text(whole, encoding="utf-8")
        else:
            file.unlink(missing_ok=True)


def mended(folder, answers, refused):
    """Returns the answers, each that was refused in the next way, or not at all where there is none."""
    for place, goal, why in refused:
        for it in answers:
            if it.goal == goal and it.file == folder / place:
                it.way = len(WAYS) if "has no" in why else it.way + 1
                while it.way < len(WAYS) and not it.has_a_way():
                    it.way += 1
    return [it for it in answers if it.has_a_way()]


def is_tried(path, tried, cycles):
    """Returns whether a proof is of a function, or of a cycle of calls, of which the gate tries an edit."""
    last, own = path.rpartition(".")[2], path.replace("+", "").replace(".", "::")
    members = [own, *(it for it, cycle in cycles.items() if cycle and f"+{cycle}" == last)]
    return any(ends_alike(it, one) for it in members for one in tried)


def add_answers(crate, folder, command, kept, least):
    """Adds answers to a crate over what a check of it kept, and returns how many, how many stay, and what the prover said."""
    known, cycles, answers = attributes(crate, folder), cycles_of(folder), []
    tried = {it.place[3] for it in edits_of(crate) if it.place and not it.by_hand}
    for file, took in proofs_in(kept).items():
        path = file.name.removeprefix(f"Rattle-{crate}-proofs.").removesuffix(".Proof.oantt")
        if took >= least or is_tried(path, tried, cycles):
            answers += new_answers(crate, folder, path, file, known)
    answers = [it for it in answers if it.has_a_way()]
    before = {it.file: it.file.read_text(encoding="utf-8") if it.file.is_file() else "" for it in answers}
    added, said = len(answers), "nothing to answer"
    while answers:
        write(crate, folder, before, answers)
        said = check(command, folder, kept)
        refused = [it for it in re.findall(REFUSED, said) if any(it[1] == one.goal for one in answers)]
        if not refused:
            break
        answers = mended(folder, answers, refused)
        if not answers:
            write(crate, folder, before, [])
    return added, len(answers), said


def run(crate, built, least):
    """Adds answers to a crate, and returns whether it is proved."""
    folder = ROOT / "crates" / crate
    command = words(libraries(), folder, built)
    with tempfile.TemporaryDirectory(prefix="lemmas-") as kept:
        said = check(command, folder, kept)
        added, left, said_last = add_answers(crate, folder, command, kept, least)
        said = said_last if added else said
        print(f"{crate}: {added} answers tried, {left} stay; {said.rstrip().splitlines()[-1]}", flush=True)
        return "logic=proved" in said


def main():
    given = argparse.ArgumentParser(description="Adds answers that name lemmas.")
    given.add_argument("--libraries", type=Path, default=ROOT / "crates", help="where the crates were built")
    given.add_argument("--least", type=float, default=1.0, help="the seconds from which a proof is looked at")
    given.add_argument("crates", nargs="+")
    given = given.parse_args()
    return 0 if all([run(it, given.libraries.resolve(), given.least) for it in given.crates]) else 1


if __name__ == "__main__":
    sys.exit(main())
