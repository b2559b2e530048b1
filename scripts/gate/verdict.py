"""The verdict on an edit: whether what the prover says of a check refuses its function, by its contract."""

import re

import no_help

# What a proof says that names what an edit took away, or of a proof that was left open, which speaks of no contract.
NOT_OF_THE_CONTRACT = (
    r"(note: )?(\./)?proofs/.*(has no field|is not in scope|has no `|was not admitted|has-holes|large solution|goal \? in )"
    rf"|{no_help.SAID}"
)
# What the prover says of a place.
TOLD = r"(?m)^(?:note: )?\S+:\d+:\d+: .*$"
# What it says of a part of a proof that it refuses, or of a goal for which it finds no proof and the repository has none.
REFUSED = r"\S+ error: |note: \S+ (it is not proved that |`search` found no proof )"
# What it says of a text that cannot be read.
UNREAD = (
    r"(?m)^(?:\./)?(src|specs)/\S+: error: "
    r".*(is not in scope|has no field|is no name|operand is missing|expected the end|cannot continue)"
)
# Why an edit is refused that only takes away a place which an answer names.
LITTLE = "only since a proof names what the edit took away, which says little of the contract"


def is_unproved(edit, said):
    """Returns whether a check does not prove an edit's function or a closure in it, and, where the edit is of what is stated, not
    only for a function that it calls."""
    *module, name = edit.place[3].split("::")
    closures = re.escape("::".join([*module, "fn", name, ""])) + r"\S+"
    told = re.findall(rf"(?m)^fn \S*\b({re.escape(edit.place[3])}|{closures}): ((?:not proved|no proof).*)$", said)
    # (what the prover refuses of the function itself it names beside what the function calls)
    of_its_own = lambda path: rf"\.{re.escape(path.replace('::', '.'))}\.\w+\.[^`]*`.* which antt refuses"
    return any(
        edit.is_body or "it calls" not in found or "did not prove" in found or re.search(of_its_own(path), found)
        for path, found in told
    )


def answer_refused(edit, said):
    """Returns what a check says of an edited function of which it refuses an answer, or None."""
    path = re.escape(edit.place[3]) if edit.place else None
    by_answer = rf"(?m)^fn \S*\b{path}: not proved; it stands on `[^`]*\.(?!{no_help.GOAL}`)[^`.]+`, which antt refuses"
    found = path and re.search(by_answer, said)
    return f"{LITTLE}: {found[0]}" if found else None


def refusal(edit, said, files=None):
    """Returns what the prover says of an edited function that is not proved, or None where it says nothing of its contract: it
    says it of the function's lines or proof, or of one of these files; of any where none are given and a function is named."""
    if not is_unproved(edit, said):
        return None
    for told in re.findall(TOLD, said):
        file, line = re.match(r"(?:note: )?(?:\./)?(\S+?):(\d+):", told).groups()
        is_read = edit.refuses if files is None else file in files
        is_refused = re.match(REFUSED, told) and not re.match(NOT_OF_THE_CONTRACT, told)
        if is_refused and (is_read or is_own(edit, file, int(line), told)):
            return told
    return None


def is_own(edit, file, line, told):
    """Returns whether what is told of a line of a file is told of an edit's function: of its lines or of its proof."""
    source, begin, end, name = edit.place
    # (the proof of a cycle of calls names the function in its goals)
    in_cycle = f"/+{edit.cycle}/" in file and f"`{name.split('::')[-1]}-" in told
    in_proof = f"/{name.replace('::', '/')}/" in file
    return file == source and begin <= line <= end or in_proof or in_cycle


def refusal_of_crate(status, said):
    """Returns why a check of a whole crate with one edit refuses it, or None."""
    if status != 1 or not said.rstrip("\n").split("\n")[-1].startswith("logic=not-proved") or re.search(UNREAD, said):
        return None
    told = re.findall(TOLD, said)
    of_the_contract = [it for it in told if not re.match(NOT_OF_THE_CONTRACT, it)]
    if of_the_contract:
        return of_the_contract[0]
    return f"{LITTLE}: {told[0]}" if told else None


def refusal_in_check(edit, status, said):
    """Returns why a check of the function that an edit names refuses it, or None."""
    return refusal(edit, said) if status == 1 and not re.search(UNREAD, said) else None
