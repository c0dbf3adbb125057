"""The refusals that the header, refusal.rs and docs/REFUSALS.md have, in one form, for tests/abi/run.

    refusals.py list header|rust        a line for each refusal: number, name, words
    refusals.py numbers rust|papers     the numbers alone
    refusals.py texts                   a line for each number below 100: what iflughan_refusal_text must say, by refusal.rs
"""
import re
import sys

from reading import HEADER, ROOT

RUST = ROOT / "bindings/rust/src/refusal.rs"
PAPERS = ROOT / "docs/REFUSALS.md"


def header():
    """The acceptance, 0, is not a refusal."""
    text = HEADER.read_text()
    numbers = re.findall(r"^    IFLUGHAN_(\w+) = (\d+),?$", text, re.M)
    words = dict(re.findall(r'case IFLUGHAN_(\w+):\s*return "(.*)";', text))
    return [(int(number), name, words.get(name, "no words")) for name, number in numbers if number != "0"]


def rust():
    """EndNotFound is the header's END_NOT_FOUND."""
    found = re.findall(r'^    (\d+) (\w+) "(.*)";$', RUST.read_text(), re.M)
    return [(int(number), re.sub(r"(?<!^)([A-Z])", r"_\1", name).upper(), words) for number, name, words in found]


def papers():
    return [(int(number), "", "") for number in re.findall(r"^\| (\d+) \|", PAPERS.read_text(), re.M)]


def texts():
    words = {number: words for number, _, words in rust()} | {0: "accepted"}
    return [f"{number} {words.get(number, 'unknown refusal')}" for number in range(100)]


SIDES = {"header": header, "rust": rust, "papers": papers}


def main(what, side=""):
    if what == "texts":
        return texts()
    if what == "numbers":
        return [str(number) for number, _, _ in SIDES[side]()]
    return [f"{number} {name} {words}" for number, name, words in SIDES[side]()]


if __name__ == "__main__":
    print("\n".join(main(*sys.argv[1:])))
