"""What the readers of declarations share: where the files lie, and how a declaration is taken apart."""
import re
import sys
from pathlib import Path

ROOT = Path(__file__).resolve().parents[2]
HEADER = ROOT / "include/iflughan.h"
FFI = ROOT / "bindings/rust/src/ffi.rs"
CRATES = ROOT / "crates"


def fail(message):
    sys.exit(f"tests/abi: {message}")


def without_comments(*files):
    return re.sub(r"/\*.*?\*/|//[^\n]*", "", "\n".join(f.read_text() for f in files), flags=re.S)


def parts(text, separator=","):
    """The parts of a list, where a separator inside brackets does not count."""
    found, depth, part = [], 0, ""
    for letter in text:
        depth += (letter in "([") - (letter in ")]")
        if letter == separator and depth == 0:
            found.append(part)
            part = ""
        else:
            part += letter
    return [p.strip() for p in found + [part] if p.strip()]


def typed(text):
    """`pub name: type` -> (name, type)"""
    name, of_type = text.split(":", 1)
    return re.sub(r"\bpub\b", "", name).strip(), of_type.strip()
