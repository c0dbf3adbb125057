#!/usr/bin/env python3
"""Brings the names of definitions and laws in the papers to the spelling of today's Rattle, by the table of tools/respell-names.py and the names below,
which port.py turned in the crates. Ran once, after those two, at the top of the checkout: python3 tools/respell-papers.py. Says which name it
wrote that no crate has. Only names change: what is said by more than a name was brought up to date by hand."""
import glob
import importlib.util
import re
import sys

sys.dont_write_bytecode = True
spec = importlib.util.spec_from_file_location("respell_names", "tools/respell-names.py")
names = importlib.util.module_from_spec(spec)
spec.loader.exec_module(names)

PAPERS = ("README.md", "CHANGELOG.md", "docs/*.md", "docs/changes/*.md", "oracle/README.md", "bindings/rust/README.md", "crates/replay/README.md")
NOT_THESE = re.compile(r"docs/(PORT|port-)")

# Definitions and laws that port.py turned.
MORE = """
afterOf bitOf cutAt formatOf gapOf judgeOf leBytes liveOf nameOf noRow numberAt openedOf opensOf partOf rangeOf rowLines rowOf rowsOf startOf tableOf targetOf
viewOf walkOf writtenBy zeroOf le-read walk-end walk-more write-read sort-sorted
""".split()


def main():
    table = {n: names.respelled(n) for n in names.NAMES} | {n: names.respelled(n).replace("-", "_") for n in MORE} | {"goes-on": "goes_on_lem"}
    crates = set()
    for file in glob.glob("crates/*/s*/**/*.*t", recursive=True) + glob.glob("crates/*/proofs/**/*.antt", recursive=True):
        crates.update(names.TOKEN.findall(open(file).read()))
    for pattern in PAPERS:
        for paper in sorted(glob.glob(pattern)):
            if NOT_THESE.match(paper):
                continue
            text = open(paper).read()
            for name in sorted(set(names.TOKEN.findall(text)) & set(table)):
                if table[name] not in crates:
                    print(f"{paper}: {name} -> {table[name]}, which no crate has")
            new = names.TOKEN.sub(lambda m: table.get(m.group(0), m.group(0)), text)
            if new != text:
                open(paper, "w").write(new)


main()
