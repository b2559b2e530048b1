"""Makes tests in which one growth of memory is refused, and judges what came of them.

The kit refuses the growth of number `REFUSED` in the process of each test, and no other. A function that meets a refused
growth makes what its calls need, spends as many growths as it is told, makes its calls, and answers whether one of them was
refused. The line before the function says between which of its growths these calls are, those that it spends left out:

    // growths: 400 to 600

So a test is made for each of these growths, or for `MOST` of them, evenly spread: it calls the function with how many growths
to spend, and ends with the error `refused` where the function answers so. Any other error is a failure. Of the tests of each
function the first, whose growth comes before the calls, and the last, whose growth comes after them, must not be refused, and
some other test must.
"""

import re

REFUSED = 5_000
MOST = 100
FUNCTION = re.compile(r"(?m)^// growths: (\d+) to (\d+)\npub\(crate\) fn (\w+)\(")
OWN_TEST = re.compile(r"(?ms)^#\[test\]\nfn .*?^\}\n")
MODULE = "refused_growths"
TEST = """
#[test]
fn {name}_at_{number}(rt: HostRuntime) -> Result<(), Fail> {{
    if {path}(&rt, rt.alloc(), {spent})? {{
        return Err("refused".into());
    }}
    Ok(())
}}
"""
RESULT = re.compile(rf"(?m)^test (?:\w+::)*{MODULE}::(\w+)_at_(\d+) \.\.\. (\w+)\n((?: .*\n)*)")
AS_REFUSED = re.compile(r" *error: \"refused\"\n")


def are_growths_refused(crate):
    """Whether a crate has functions that meet a refused growth."""
    return any(FUNCTION.search(file.read_text(encoding="utf-8")) for file in (crate / "src").glob("*.rt"))


def numbers_of(first, last):
    """Returns the numbers of the growths that are refused: the first, the last, and those between them, or some."""
    return [*range(first, last, -(-(last - first) // MOST)), last]


def make_tests(source, crate):
    """Puts such tests in place of those of a crate that is a module of the crate with this source. Returns the numbers of the
    growths that are refused, by the function."""
    made, numbers = ["//! Calls of which a growth is refused.\n\nuse std::test::Fail;\n"], {}
    for file in sorted((source / crate).glob("*.rt")):
        text = file.read_text(encoding="utf-8")
        for first, last, name in FUNCTION.findall(text):
            numbers[name] = numbers_of(int(first), int(last))
            path = f"crate::{crate}::{file.stem}::{name}"
            made += [TEST.format(name=name, number=it, path=path, spent=REFUSED - it) for it in numbers[name]]
        file.write_text(OWN_TEST.sub("", text), encoding="utf-8")
    (source / crate / f"{MODULE}.rt").write_text("".join(made), encoding="utf-8")
    with (source / f"{crate}.rt").open("a", encoding="utf-8") as head:
        head.write(f"#[cfg(test)]\nmod {MODULE};\n")
    return numbers


def judge_tests(numbers, output, tally):
    """Judges the output of these tests: each test, and each function by which of its tests were refused."""
    ended = {(name, int(number)): (word, why) for name, number, word, why in RESULT.findall(output)}
    for name, expected in numbers.items():
        refused = []
        for number in expected:
            word, why = ended.get((name, number), ("not run", ""))
            is_refused = word == "FAILED" and AS_REFUSED.match(why) is not None
            tally.judge(word == "ok" or is_refused, f"{name}, growth {number} refused: {word}\n{why}")
            refused += [number] if is_refused else []
        is_between = refused and expected[0] < refused[0] and refused[-1] < expected[-1]
        tally.judge(is_between, f"{name}: of growths {expected[0]} to {expected[-1]} its calls asked for {refused}")
