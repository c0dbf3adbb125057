#!/usr/bin/env python3
"""Brings this repository's own definitions and lemmas to the spelling of today's Rattle: functions and lemmas in snake case, each part
between dashes by itself. Ran once, after the kit's port.py, at the top of the checkout: python3 tools/respell-names.py CRATE..
(no CRATE: all). Functions of src/ keep their names: none is in camel case."""
import glob
import re
import sys

TOKEN = re.compile(r"[A-Za-z0-9_\-'·◌₀-₉]+")
HEAD = re.compile(r"\s*(?:(?:abbrev|unfoldable|pub|record|data|constructor)\s+)*([A-Za-z][A-Za-z0-9_\-'·]*)\s*(?:[({][^=]*)?:\s")

# Lemmas and places whose name would fall together with a definition: (name, new name, the files that have it).
FIRST = [
    ('all_digits', 'all_digits_lem', ['segment_filename/proofs/parse_u32/Proof.antt', 'segment_filename/proofs/ParsingWritten.antt']),
    ('goes_on', 'goes_on_lem', ['walk/proofs/Judging.antt', 'history/proofs/Over.antt', 'recovery/proofs/RecoveryWhole.antt']),
    ('no_rows', 'no_rows_lem', ['history/proofs/Whole.antt']),
    ('slots_apart', 'slots_apart_lem', ['recovery/proofs/Recovery.antt', 'recovery/proofs/RecoveryShape.antt']),
    ('header_of', 'header_told', ['walk/proofs/record_at/Proof.antt']),
    ('front_of', 'front_entered', ['recovery_walk/proofs/first_pass/walk_images/Proof.antt']),
]

# The definitions and lemmas of all crates, so that a crate by itself is turned as in the whole.
NAMES = '''
abcTo advancedBy advancedOf afterAppend afterPrune afterRecovery allDigits appendAnswer appendArea appendLog appendOf appendedOut
areaAfter arrangedOf beforeOf bothGroups bySide chainOf closedBy closedOf closedView compareKeys cutIn cutOff cutSegment cutTurn
decideLog decideOf decimalIn decimalOf decisionOf decodeOutcome decodedBy decodedDelta decodedOf decodingBy decodingConsumed
decodingNumber decodingOutcome deltaAnswer deltaBytes dividesB dropNew dropOld earlyLog earlyOf emptyOf encodeOutcome encodedBy
encodedLength encodedNumber encodedOf endedAt endedLog endedView endsOf entriesOf eraseAt eraseBytes erasedRows faultOf filledBy
filledOf findCut firstRefusal fitsSlot fittingOf followsOf formatInto formatLength formatNumber formatOutcome formattedBy
freeFrom frontKept frontOf frontRoute frontTurn goesOn grownAnswer grownOf headerBy headerBytes headerFits headerNumber headerOf
headerOutcome heardCall holdsLive idBytes imageAt imageIn imageRowOf imageWalk imagesOf insertRow insideOf isDigit isU32 judgeOf
judgeRecord judgedAs keepAt keptIn keptLine keptOf lastUnder leAt liveCount liveItems logOf loggedOut lookAt lookBy lowestFree
lowestZero maxImage maxPayload moreOf movedOf movedRows multipleFrom newOf newestCut newestFrom newestIn newestOf nextId
nextImage noDelta noRows noSegment oldestLog oneApart oneErased oneReinstated oneZero outcomeOf outsideOf paddedEnd paddedTo
parseId parseNumber parseOf parseOutcome parsedBy parsedName passedOf payloadAt payloadDelta payloadOf penAt penBy penOf penTurn
penWith placeOfE placelessLog placelessWalk pruneAnswer pruneArea pruneOf pruneOldestOf pruneRecentOf prunesTo putRow questionAt
ranksOf readAt readTo recentLog recordAt recordBytes recordIn recordInto recordOf recordRoom recordStep recordsFrom recoveredOut
recoveryAnswer recoveryArea recoveryIndex recoveryOf refusalOf refusedAppend refusedLog refusedOf refusedRows reinstateAt
reinstateBytes reinstatedRows roomyOf rowFor rowKey rowNumber rowOut rowQuestion rowWord rowWords rowsAll rowsApart rowsChain
rowsFit rowsFor rowsIn rowsInside rowsOver sTy scanOf scannedOf segOf segmentAt shapedOf sizeAfter sizesOf slotMarks slotNumber
slotsApart sortBy sortRows sortedOf standAt startAfter startedAt stepAt tableIn tableOut tooMany truncatedArea u32By u32Of
u32Outcome u64Outcome untilFuel valueFrom walkBy walkFront walkTurn withRecord withoutPrefix withoutSuffix writtenDelta
writtenName zeroDelta zeroLog zeroRow zerosOf
'''.split()


def snake(part):
    return re.sub(r'([a-z0-9])([A-Z])', r'\1_\2', part).lower()


def respelled(name):
    return '-'.join(snake(p) if re.match(r'[a-z]', p) and re.search(r'[a-z0-9][A-Z]', p) else p for p in name.split('-'))


def files(crate, *kinds):
    return [f for kind in kinds for f in sorted(glob.glob(f'crates/{crate}/{kind}', recursive=True)) if '/out/' not in f]


def turn(path, table):
    try:
        text = open(path).read()
    except FileNotFoundError:
        return
    new = TOKEN.sub(lambda m: table.get(m.group(0), m.group(0)), text)
    if new != text:
        open(path, 'w').write(new)


def main():
    crates = sys.argv[1:] or ['*']
    for name, new, where in FIRST:
        for f in where:
            turn('crates/' + f, {name: new})
    table = {n: respelled(n) for n in NAMES}
    for crate in crates:
        for f in files(crate, 'specs/**/*.antt', 'proofs/**/*.antt', 'src/**/*.rt'):
            turn(f, table)


if __name__ == '__main__' and sys.argv[1:] == ['--names']:
    found = set()
    for f in files('*', 'specs/**/*.antt', 'proofs/**/*.antt'):
        found.update(m.group(1) for m in map(HEAD.match, open(f)) if m)
    print(*sorted(n for n in found if respelled(n) != n))
elif __name__ == '__main__':
    main()
