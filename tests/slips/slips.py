"""The slips of must-fail edits, and the places where the prover's log of an edit has an error of its own."""
import re

# A part that could not be checked because another one failed does not count, nor does one that no longer fits the code's shape, nor one at which
# the prover met a limit of its own and gave no verdict.
NOT_ITS_OWN = ("was not admitted", "was rejected", "were not checked", "has no `", "has no field", "not in scope")
NO_VERDICT = ("antt ran out of", "outgrew the memory limit", "stopped at the step limit", "gave up at one of its limits")


def slips_of(edit):
    """The slips of an edit, in order: name, place (PLACE, PART) or None, and text."""
    slips = []
    for text in re.split(r"(?m)^(?=slip: )", edit.read_text()):
        name = re.match(r"slip: (.*)", text)
        if name:
            place = re.search(r"(?m)^at: (.*)$", text)
            slips.append((name[1], place and tuple(place[1].split()), text))
    return slips


def refused_parts(log):
    """The errors of its own that a log has, in order: (PLACE, PART), where PART is a declaration of the file proofs/PLACE.antt, or a goal of the
    function PLACE: one whose answer in proofs/PLACE/ does not hold, or one with no answer there that the prover's own search did not prove."""
    found, asked = [], []
    for line in log.read_text(errors="replace").splitlines() if log.exists() else []:
        if any(words in line for words in NO_VERDICT):
            continue
        error = re.match(r"(?:\./)?proofs/(\S+?)(?:/(?:Answers|Invariants|Proof))?\.antt:\d+:\d+: error: `([^`]+)`: (.*)", line)
        if error and not any(words in error[3] for words in NOT_ITS_OWN):
            found.append((error[1], error[2]))
        # such notes stand before the line of their function
        goal = re.match(r"note: src/\S+:\d+:\d+: it is not proved that .*\(`([^`]+)`\)(?:; .*)?$", line)
        if goal:
            asked.append(goal[1])
        function = re.match(r"fn \w+?::(\S+): (.*)", line)
        if function:
            found += [(function[1].replace("::", "/"), part) for part in asked]
            asked = []
            search = re.search(r"`search` did not prove ([^;]*)", function[2])
            if search:
                found += [(function[1].replace("::", "/"), part) for part in re.findall(r"`([^`]+)`", search[1])]
    return list(dict.fromkeys(found))


def places_of(log):
    """The places where the log has an error of its own; none where there is no log."""
    return set(refused_parts(log))
