#!/usr/bin/env python3
"""Counts and names the places of docs/DESIGN-PASS.md: design_counts.py [FOLDER], the folder of a checkout (default: this one).

It reads crates/*/src/*.rt alone. A place is a type, a function, a loop or a clause, as the line says that counts it.
"""
import glob
import re
import sys
from pathlib import Path

ROOT = Path(sys.argv[1] if len(sys.argv) > 1 else Path(__file__).resolve().parent.parent)


def sources():
    """Each crate's name with each of its files, comments left out."""
    for path in sorted(glob.glob(f"{ROOT}/crates/*/src/**/*.rt", recursive=True)):
        text = re.sub(r"^\s*//.*$", "", Path(path).read_text(), flags=re.M)
        yield path.split("/crates/")[1].split("/")[0], text


def function_before(text, at):
    """The name of the function that the place stands in."""
    names = re.findall(r"\bfn (\w+)", text[:at])
    return names[-1] if names else "-"


def functions(text):
    """Name, parameters, answer and contract of each function."""
    pattern = r"^ *(?:pub )?(?:extern \"C\" )?fn (\w+)(?:<[^(]*>)?\((.*?)\)( -> [^\n{]+)?((?:\n +(?:requires|ensures).*?)*)\n? *\{$"
    for found in re.finditer(pattern, text, re.M | re.S):
        plain = re.sub(r"<[^<>]*>|\[[^\[\]]*\]|\([^()]*\)", "", found.group(2))
        plain = re.sub(r"<[^<>]*>", "", plain)
        count = len([part for part in plain.split(",") if part.strip()])
        yield found.group(1), count, found.group(3) or "", found.group(4)


def matches(pattern, flags=re.M | re.S):
    """Crate, function and text of each place of a pattern."""
    for crate, text in sources():
        for found in re.finditer(pattern, text, flags):
            yield crate, function_before(text, found.start()), found.group(0)


def show(title, places):
    """A line with the count, and one with the places."""
    places = list(places)
    print(f"{title}: {len(places)}")
    if places:
        print("    " + ", ".join(places))


def enums():
    """Enums with at most four variants, of which at least one is empty or is a refusal."""
    for crate, text in sources():
        for found in re.finditer(r"^(?:pub )?enum (\w+) \{\n(.*?)^\}", text, re.M | re.S):
            body = re.sub(r"\{[^{}]*\}|\([^()]*\)", "+", found.group(2))
            variants = [part.strip() for part in body.split(",") if part.strip()]
            bare = [part for part in variants if "+" not in part]
            refuses = [part for part in variants if re.match(r"Refused|Shut|Broke|Breaks", part)]
            if len(variants) <= 4 and len(bare) < len(variants) and (bare or refuses):
                yield f"{crate}::{found.group(1)}"
        for found in re.finditer(r"^(?:pub )?enum (Nest)\b", text, re.M):
            yield f"{crate}::{found.group(1)}"


def flags():
    """Fields that say whether the others count: a refusal's number, or whether something is held."""
    for crate, text in sources():
        for found in re.finditer(r"struct (\w+)[^{]*\{\n(.*?)^\}", text, re.M | re.S):
            for field in re.findall(r"pub (refusal|number|held|label_held): (?:u8|usize|bool)", found.group(2)):
                yield f"{crate}::{found.group(1)}.{field}"


def counting_loops():
    """`while` and `loop` whose body moves a number by one, or by a row's 8 bytes."""
    for crate, text in sources():
        for found in re.finditer(r"^( +)(?:while [^{]*|loop )\{\n(.*?)^\1\}", text, re.M | re.S):
            if re.search(r"\b\w+ (?:\+=|-=) (?:1|8);", found.group(2)):
                yield f"{crate}::{function_before(text, found.start())}"


def main():
    print("1. own Option and Result, flags, numbers")
    show("enums of the shape of Option or Result", enums())
    show("a number or flag with values beside it", flags())
    number = r"\bhalt\((?:\d+|[A-Z_]+),|\bput_none\(at, \d+|number: (?:\d+|[A-Z_]+)\b|writer: w|return (?:OUT_OF_PLACE|TOO_SHORT|tree_file::\w+);|const (?:NO_LIST|LONG_LABEL|BAD_\w+|TOO_\w+|OUT_OF_PLACE): u8"
    show("refusals by number", (f"{c}::{f}" for c, f, _ in matches(number)))
    show("kinds and classes by number (constants)", (f"{c}::{t.split()[1].rstrip(':')}" for c, _, t in matches(r"const (?:TOKEN|ITEM|CLAUSE|SCOPE|CLASS)_\w+: (?:u8|usize) = \d+")))
    zero = r"=> 0,\n|kind: 0,|NO_KIND|NO_ALIAS|first: bool, last"
    show("0 or a flag for what is not there (functions)", sorted({f"{c}::{f}" for c, f, _ in matches(zero)}))
    print("3. loops")
    show("`while` and `loop` that count by hand", counting_loops())
    show("all `while` and `loop`", (f"{c}::{f}" for c, f, _ in matches(r"^ +(?:while |loop \{)")))
    show("`for`", (f"{c}::{f}" for c, f, _ in matches(r"^ +for \w")))
    chain = r"\.iter\(\)|\.chunks_exact\(|\.iter_mut\(\)|\.copy_from_slice\(|\.fill\(|\.copy_within\(|\.position\("
    show("iterators and slices' methods", (f"{c}::{f}" for c, f, _ in matches(chain)))
    print("4. by hand what a derive or the library has")
    plain = r"^ +match \w+ \{\n(?: +\w+::\w+(?: \{[^}]*\}|\([^)]*\))? => (?:true|false|0|\w+::\w+|b'.'|exterior|at),\n){5,} +\}"
    show("a match that names five variants or more for a yes or no, a number or one value", (f"{c}::{f}" for c, f, _ in matches(plain)))
    show("types that derive nothing but Clone and Copy", (f"{c}::{t.split()[-1]}" for c, _, t in matches(r"#\[derive\(Clone, Copy\)\]\n(?:pub )?(?:enum|struct) \w+")))
    show("impl From, TryFrom or Display", (f"{c}: {t}" for c, _, t in matches(r"^impl (?:From|TryFrom|fmt::Display|Display)[^{]*(?=\{)")))
    print("5. facts in many contracts, parameters that travel together")
    for name, pattern in [
        ("the output is no longer than the cap", r"length out\.old ≤ cap"),
        ("the rows and the text are those of children", r"requires [^\n]*SomeForest rows\.now text\.now 0 0"),
        ("the rules have their index", r"requires [^\n]*SomeRules rules\.now index\.now"),
        ("the walk has room", r"requires room "),
        ("elements are spelt", r"requires siblings "),
        ("the held label is within its limit", r"label_len ≤ label_most"),
        ("a document is open", r"requires [^\n]*Document rules\.now"),
    ]:
        show(name, (f"{c}::{f}" for c, f, _ in matches(pattern)))
    show("functions of eight parameters or more", (f"{c}::{n} {k}" for c, text in sources() for n, k, _, _ in functions(text) if k >= 8))
    print("6. buffers with a length beside")
    show("a length beside its bytes", (f"{c}: {t.strip()}" for c, _, t in matches(r"pub label_len: usize|digits: \[u8; 20\]|plan: &mut \[usize\]|index: &mut \[u32\]")))
    print("7. switches")
    show("enums that say which step to run", (f"{c}::{t.split()[-1]}" for c, _, t in matches(r"^(?:pub )?enum (?:Loop|Act|Way|Wanted|Stop)\b")))
    print("8. proofs")
    proofs = [len(Path(p).read_text().splitlines()) for p in glob.glob(f"{ROOT}/crates/*/proofs/**/*.antt", recursive=True)]
    answers = [len(Path(p).read_text().splitlines()) for p in glob.glob(f"{ROOT}/crates/*/proofs/**/Answers.antt", recursive=True)]
    steady = [len(Path(p).read_text().splitlines()) for p in glob.glob(f"{ROOT}/crates/*/proofs/**/Invariants.antt", recursive=True)]
    print(f"lines of proofs: {sum(proofs)} in {len(proofs)} files; of answers: {sum(answers)} in {len(answers)}; of invariants: {sum(steady)} in {len(steady)}")


if __name__ == "__main__":
    main()
