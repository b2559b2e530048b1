"""The copy of a crate that a check reads: with edits made, and what says nothing of the edited functions left out."""

import re
import shutil

import no_help
from edit import apply
from repository import PARTS
from source import body_of, cycles_of, ends_alike, functions, key_of

# An answer that only lists the lemmas by which the prover is to find a proof.
LISTED = r"(?m)^pub (\S+) : goal\.\1\n(?:unfolding .*\n)?\1 (?:g )?(?:t )?c = first_of \(grind .*, search rules\)\n+"
# The body of a function that is not looked at.
NO_BODY = "loop {}"


def make_copy(folder, copy, edits):
    """Makes a copy of a crate, with edits."""
    for part in PARTS:
        if (folder / part).is_dir():
            shutil.copytree(folder / part, copy / part)
    apply(edits, copy)


def has_listing(edit):
    """Returns whether the proof of an edit's function, or of its cycle of calls, has an answer that only lists lemmas."""
    name = edit.place[3].split("::")[-1]
    files = [*edit.folder.glob(f"proofs/**/{name}/Answers.antt"), *edit.folder.glob("proofs/**/+*/Answers.antt")]
    return any(re.search(LISTED, it.read_text(encoding="utf-8")) for it in files)


def strip_answers(copy):
    """Takes the answers that only list lemmas out of the proofs of a copy of a crate."""
    for file in copy.glob("proofs/**/Answers.antt"):
        text = file.read_text(encoding="utf-8")
        left = re.sub(LISTED, "", text)
        if not re.search(r"(?m)^pub ", left):
            file.unlink()
        elif left != text:
            file.write_text(left.rstrip("\n") + "\n", encoding="utf-8")


def leave_open(library, copy, edits, edited):
    """Has a copy of a crate leave the proof of each function open but those that are edited, and of each cycle of calls but
    theirs: what is tried of an edited function is its own proof, by what the others promise. Returns the words that a check of
    it wants. The library as it was built tells which functions and cycles there are; where there is none, nothing is left open."""
    opened, closed = proofs_of(library, copy, edited)
    for path, part in opened:
        open_proof(library.stem, copy, path, part)
    if not opened:
        return []
    cut_bodies(copy, edited)
    if all(it.is_body for it in edits):
        for path, _ in closed:
            no_help.add_answer(library.stem, copy, path)
    return ["--allow-holes"]


def open_proof(name, copy, path, part):
    """Has a copy of a crate with that name leave one proof open."""
    last = path.rpartition(".")[2]
    folder = copy / "proofs" / path.replace(".", "/")
    folder.mkdir(parents=True, exist_ok=True)
    for it in ("Answers", "Invariants"):
        (folder / f"{it}.antt").unlink(missing_ok=True)
    of = path if part == "Code" else f"{path}.Statement"
    text = f"use Rattle.{name}.proofs.{of}.{{statement}}\n\npub {last}_spec : {{M : Type 1}} → statement M\n{last}_spec = ?\n"
    (folder / "Proof.antt").write_text(text, encoding="utf-8")


def proofs_of(library, copy, edited):
    """Returns the path and the part of each proof that a library as it was built has, of a function or of a cycle of calls,
    first of those that say nothing of an edited function and are not of what drops a value, which is asked for where what it
    drops has a proof, and then of the others."""
    listed = library / "toolchain" / "checked.json"
    if not listed.is_file():
        return [], []
    made = re.findall(rf'"part/Rattle-{library.stem}-proofs\.([^"]+)\.(TheLink|Code)"', listed.read_text(encoding="utf-8"))
    cycles = cycles_of(copy)
    # (a function that calls itself is a cycle by itself, which has its name)
    for path, part in made:
        own = key_of(cycles, path.replace("+", ""))
        if part == "Code" and path.rpartition(".")[2].startswith("+") and own and cycles[own] is None:
            cycles[own] = own.rpartition("::")[2]
    known = [it for it in made if is_left_open(*it, cycles, ()) and not it[0].endswith(".drop")]
    opened = [it for it in known if is_left_open(*it, cycles, edited)]
    return opened, [it for it in known if it not in opened]


def is_left_open(path, part, cycles, edited):
    """Returns whether a proof that a library has, of a function or of a cycle of calls, says nothing of an edited function."""
    named, last = path.replace(".", "::"), path.rpartition(".")[2]
    if part == "Code":
        members = [it for it, cycle in cycles.items() if cycle and f"+{cycle}" == last]
        return bool(members) and not any(ends_alike(it, one) for it in members for one in edited)
    own = key_of(cycles, path)
    return own is not None and cycles[own] is None and not any(ends_alike(named, one) for one in edited)


def cut_bodies(copy, edited):
    """Has each function of a copy of a crate whose proof is left open end before it begins, so that a check of the others need
    not read what it does."""
    for file in sorted(copy.glob("src/**/*.rt")):
        text = file.read_text(encoding="utf-8")
        lines = text.split("\n")
        for begin, end, path in reversed(functions(str(file.relative_to(copy)), text)):
            if not any(ends_alike(path, it) for it in edited):
                cut_body(lines, begin, end, path.rpartition("::")[2])
        file.write_text("\n".join(lines), encoding="utf-8")


def cut_body(lines, begin, end, name):
    """Cuts the body of the function with that name out of the lines of its file. Those of a cycle of calls stay, those that a
    constant may call, and those that drop or compare, since the prover looks at these bodies for other functions."""
    indent = len(lines[end - 1]) - len(lines[end - 1].lstrip())
    if lines[end - 1] != " " * indent + "}":
        return
    at = body_of(lines, begin - 1, end - 1, indent)
    is_looked_at = name in ("drop", "eq", "ne") or re.search(r"#\[cycle\(|\bconst fn\b", "\n".join(lines[begin - 1 : end]))
    if at is None or is_looked_at or re.search(rf"\b{name}\b", "\n".join(lines[at + 1 : end - 1])):
        return
    # (as many lines as before, since a place of a text is told by its line)
    lines[at + 1 : end - 1] = [" " * indent + "    " + NO_BODY, *[""] * (end - at - 3)]
