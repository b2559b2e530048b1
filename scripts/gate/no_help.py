"""What keeps the prover from looking for help, and does nothing else.

Once it has tried every goal of a function, the prover looks for help for those that it did not prove: which lemma, which
definition may do. Of an edited function nobody reads that, and it takes a sixth of a check. It does not look for any where a
function has an answer for a goal that there is not. So each edited function gets such an answer, and that the prover refuses
it counts for nothing."""

# The name of a goal that no function has.
GOAL = "no-help"
# What the prover says of the answer for it.
SAID = rf".*`{GOAL}`"


def add_answer(name, copy, path):
    """Adds to the answers of the function, or of the cycle of calls, with that path of proofs an answer for a goal that there
    is not, in a copy of the crate with that name."""
    file = copy / "proofs" / path.replace(".", "/") / "Answers.antt"
    if file.with_name("Proof.antt").is_file():
        return
    file.parent.mkdir(parents=True, exist_ok=True)
    text = file.read_text(encoding="utf-8") if file.is_file() else f"use Rattle.{name}.proofs.{path}.Goals as goal\n"
    file.write_text(f"{text}\npub {GOAL} : goal.{GOAL}\n{GOAL} c = ?\n", encoding="utf-8")
