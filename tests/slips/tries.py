"""Tries edits: checks a copy of a crate with each edit's texts in place of its own, and keeps all that the prover said.

rt ci and rt must-fail try each edit too, and say that it was refused, with the first error's first words: where else it was refused they do not say
and keep nowhere, and an edit may hold several slips. So each is tried here once more, by `rt check`, in copies of the crates outside the repository. What a
try said is kept in a file NAME.log, with the sum of all that it was made of in NAME.of, and a try of the same is not made again.
"""
import hashlib
import os
import pathlib
import queue
import re
import shutil
import subprocess
import tempfile
import threading

ROOT = pathlib.Path(__file__).resolve().parents[2]
PARTS = ("src", "specs", "proofs")
# A check takes up to about this much memory.
MEMORY = 3_000_000_000


def stands_on():
    """Each crate of crates.txt, and the crates of the repository that it stands on."""
    rows = re.findall(r"(?m)^(\w+)(?: +\w+)*:(.*)$", (ROOT / "crates.txt").read_text())
    crates = {name for name, _ in rows}
    return {name: [it for it in words.split() if it in crates] for name, words in rows}


def all_below(crate, direct):
    return {crate}.union(*(all_below(it, direct) for it in direct[crate]))


def sum_of(crate, direct, version, text):
    """The sum of all that a try of this text of an edit reads."""
    pairs = [line for line in text.split("\n") if line.startswith(("file: ", "old: ", "new:"))]
    found = hashlib.sha256(repr((version, sorted(direct.items()), pairs)).encode())
    for name in sorted(all_below(crate, direct)):
        for part in PARTS:
            for file in sorted((ROOT / "crates" / name / part).rglob("*")):
                if file.is_file():
                    found.update(repr((str(file.relative_to(ROOT)), file.read_bytes())).encode())
    return found.hexdigest()


def edited(folder, text):
    """The texts of the files that the edit changes, by their paths. An old text stands once in its file, as rt wants it."""
    path, old, texts = None, None, {}
    for line in text.split("\n"):
        if line.startswith("file: "):
            path = folder / line[len("file: "):].strip()
        elif line.startswith("old: "):
            old = line[len("old: "):]
        elif line.startswith("new:"):
            new = line[len("new:"):].removeprefix(" ")
            was = texts.get(path) or path.read_text()
            if was.count(old) != 1:
                raise ValueError(f"an old text stands {was.count(old)} times in {path.relative_to(folder)}, and not once: {old}")
            texts[path] = was.replace(old, new)
    return texts


def copy(to):
    """A repository with the crates' texts, and the libraries that stand built beside them (by links where these can be made: rt replaces such a
    file and changes none)."""

    def link(one, other):
        try:
            os.link(one, other)
        except OSError:
            shutil.copy2(one, other)

    (to / ".git").mkdir(parents=True)
    shutil.copy(ROOT / "crates.txt", to)
    for crate in sorted((ROOT / "crates").iterdir()):
        for part in PARTS:
            if (crate / part).is_dir():
                shutil.copytree(crate / part, to / "crates" / crate.name / part)
        if (crate / "out/rlib").is_dir():
            shutil.copytree(crate / "out/rlib", to / "crates" / crate.name / "out/rlib", copy_function=link)


def check(folder):
    """What a check of the crate in the folder says; its last line is the exit status."""
    done = subprocess.run(["rt", "check", "--jobs", "1"], cwd=folder, stdin=subprocess.DEVNULL, stdout=subprocess.PIPE, stderr=subprocess.STDOUT, errors="replace")
    return f"{done.stdout}\nstatus {done.returncode}\n"


def lanes():
    """How many checks run side by side: RT_JOBS, as rt has it, or one a processor, as many as memory holds."""
    if os.environ.get("RT_JOBS", "").isdigit():
        return max(1, int(os.environ["RT_JOBS"]))
    memory = re.search(r"MemAvailable:\s+(\d+)", pathlib.Path("/proc/meminfo").read_text())
    return max(1, min(len(os.sched_getaffinity(0)), 1024 * int(memory[1]) // MEMORY))


def work(room, tasks, wrong):
    copy(room)
    while True:
        try:
            crate, tries = tasks.get_nowait()
        except queue.Empty:
            return
        folder = room / "crates" / crate
        said = check(folder)
        if not said.endswith("\nstatus 0\n"):
            wrong.append(f"{crate}: its own check, with no edit, is not proved: {said[-300:]}")
            continue
        for log, text, made_of in tries:
            try:
                texts = edited(folder, text)
            except (ValueError, OSError) as error:
                wrong.append(f"{crate}/{log.stem}: the edit cannot be applied: {error}")
                continue
            was = {path: path.read_text() for path in texts}
            for path, new in texts.items():
                path.write_text(new)
            said = check(folder)
            for path, old in was.items():
                path.write_text(old)
            log.parent.mkdir(parents=True, exist_ok=True)
            log.write_text(said)
            log.with_suffix(".of").write_text(made_of)
        # (what the checks kept takes much of the disk)
        shutil.rmtree(folder / "out/incremental", ignore_errors=True)


def try_all(edits):
    """Tries the edits, (crate, log, text) each, where the log is not there yet; gives what could not be tried, a line each."""
    direct, version = stands_on(), subprocess.run(["rt", "version"], capture_output=True, text=True, check=True).stdout
    todo, wrong = {}, []
    for crate, log, text in edits:
        made_of = sum_of(crate, direct, version, text)
        of = log.with_suffix(".of")
        if not (log.exists() and of.exists() and of.read_text() == made_of):
            log.unlink(missing_ok=True)
            of.unlink(missing_ok=True)
            todo.setdefault(crate, []).append((log, text, made_of))
    tasks = queue.Queue()
    for item in sorted(todo.items(), key=lambda it: -len(it[1])):
        tasks.put(item)
    with tempfile.TemporaryDirectory(prefix="iflughan-slips-") as room:
        threads = [threading.Thread(target=work, args=(pathlib.Path(room, str(i)), tasks, wrong)) for i in range(min(lanes(), len(todo)))]
        for it in threads:
            it.start()
        for it in threads:
            it.join()
    return wrong
