"""The folders that ./iflughan list is run on: what is in each, the range asked for, the last line, and what is said above it."""
import os
import random
import struct

PAGE = 4096


def record(number, payload=b"abc"):
    """A record's bytes: length, id, payload, zeros to the next page."""
    whole = struct.pack("<IQ", len(payload), number) + payload
    return whole + bytes(-len(whole) % PAGE)


def records(first, last):
    return b"".join(record(number) for number in range(first, last + 1))


def name(number):
    return f"scans.{number:010}.log"


def noise(size, seed=1):
    return random.Random(seed).randbytes(size)


def refused(number, before=""):
    """The last line of a folder with a fault; the range that stands before it, where none was asked for."""
    return f"refused {number} in the image said above" + (f"; what stands before it is listed with the range {before}" if before else "")


def up_to(last, line):
    return f"{line}; nothing behind record {last} was looked at"


# What is no file of bytes: a function that makes it.
FOLDER, PIPE = os.mkdir, os.mkfifo
NOWHERE = lambda path: os.symlink("nowhere", path)

ONE, TWO = records(1, 2), records(3, 4)
WHOLE = {name(1): ONE, name(2): TWO}
# Five bytes of a header behind the last committed record: what a power cut left of a write.
ACCIDENT = {name(1): ONE + record(3)[:5]}
STRANGE = "refused: not all that is there belongs to the log, as said above"
AT_4096 = ", the newest at byte 4096"
NOT_LOOKED_AT = "; not looked at from byte 8192 on"

# what: (files, range, last line, names or whole lines that stand above it)
FOLDERS = {
    "two segments": (WHOLE, "", "ok 4 records in 2 images", []),
    "segments from 7 on": ({name(7): ONE, name(8): TWO}, "", "ok 4 records in 2 images", []),
    "all records as a range": (WHOLE, "1 4", "ok 4 records in 2 images", [f"slot 1: {name(2)}, 8192 bytes, 2 records, 3 to 4{AT_4096}"]),
    "a range": (
        WHOLE, "2 3", up_to(3, "ok 2 records in 2 images"),
        [f"slot 1: {name(2)}, 8192 bytes, 1 records, 3 to 3, the newest at byte 0; not looked at from byte 4096 on"]),
    "the newest behind a record of two pages": (
        {name(1): record(1, bytes(5000)) + record(2)}, "", "ok 2 records in 1 images",
        [f"slot 0: {name(1)}, 12288 bytes, 2 records, 1 to 2, the newest at byte 8192"]),
    "a range of the first image": (WHOLE, "1 2", up_to(2, "ok 2 records in 2 images"), [f"slot 1: {name(2)}, 8192 bytes, not looked at"]),
    "the empty range": (WHOLE, "0 0", "ok 0 records in 2 images", []),
    "another prefix beside it": ({**WHOLE, "other.0000000009.log": noise(9)}, "", "ok 4 records in 2 images", []),
    "an empty segment": ({name(1): b""}, "", "ok 0 records in 1 images", []),
    "an empty segment at the end": ({name(1): ONE, name(2): b""}, "", "ok 2 records in 2 images", []),
    "64 segments": ({name(i): record(i) for i in range(1, 65)}, "", "ok 64 records in 64 images", []),
    "no file": ({}, "", "refused: the folder has no file of this prefix", []),
    "a gap": ({name(1): ONE, name(2): TWO, name(4): records(5, 6)}, "", STRANGE, [name(4)]),
    "70 segments": ({name(i): record(i) for i in range(1, 71)}, "", STRANGE, [name(i) for i in range(65, 71)]),
    "1280 records in 5 MiB": ({name(1): records(1, 1280)}, "", STRANGE, [name(1)]),
    "a record of 5 MB": ({name(1): record(1, bytes(5000000))}, "", STRANGE, [name(1)]),
    "too large together": ({name(i): bytes(200000) for i in (1, 2, 3)}, "", STRANGE, [name(i) for i in (1, 2, 3)]),
    "a folder": ({name(1): ONE, name(2): FOLDER}, "", STRANGE, [name(2)]),
    "a pipe": ({name(1): ONE, name(2): PIPE}, "", STRANGE, [name(2)]),
    "a link to nowhere": ({name(1): NOWHERE}, "", STRANGE, [name(1)]),
    "a copy beside it": ({**WHOLE, name(2) + ".bak": TWO}, "", STRANGE, [name(2) + ".bak"]),
    "nine digits": ({"scans.000000001.log": ONE}, "", STRANGE, ["scans.000000001.log"]),
    "a line end in a name": ({name(1): ONE, name(2) + "\n": TWO}, "", STRANGE, [name(2) + "?"]),
    "segment 0": ({name(0): ONE, name(1): TWO}, "", STRANGE, [name(0)]),
    "a plus sign": ({"scans.+000000001.log": ONE, name(2): TWO}, "", STRANGE, ["scans.+000000001.log"]),
    "a plus sign beside its segment": ({"scans.+000000001.log": ONE, **WHOLE}, "", STRANGE, ["scans.+000000001.log"]),
    "a space for a digit": ({"scans. 000000001.log": ONE}, "", STRANGE, ["scans. 000000001.log"]),
    "random bytes": ({name(1): noise(5000)}, "", refused(20), [name(1)]),
    "other random bytes": ({name(1): noise(5000, 2)}, "", refused(18), [name(1)]),
    "zeros": ({name(1): bytes(5000)}, "", refused(19), [name(1)]),
    "cut in a header": (
        {name(1): ONE, name(2): TWO[: PAGE + 9]}, "", refused(17, "1 3"),
        [f"slot 1: {name(2)}, 4105 bytes, 1 records, 3 to 3, the newest at byte 0; refused 17 at byte 4096"]),
    "cut in a payload": ({name(1): ONE, name(2): TWO[: PAGE + 14]}, "", refused(20, "1 3"), [name(2)]),
    "cut in the padding": ({name(1): ONE, name(2): TWO[: PAGE + 15]}, "", "ok 4 records in 2 images", []),
    "cut behind the range": ({name(1): ONE, name(2): TWO[: PAGE + 14]}, "1 3", up_to(3, "ok 3 records in 2 images"), []),
    "a record missing inside": ({name(1): record(1) + record(3)}, "", refused(19, "1 1"), [name(1)]),
    "a record missing between": (
        {name(1): ONE, name(2): records(4, 5)}, "", refused(19, "1 2"),
        [f"slot 1: {name(2)}, 8192 bytes, 0 records; refused 19 at byte 0; by itself it has 4 to 5"]),
    "records that stand again in a later image": ({name(1): records(1, 3), name(2): records(2, 3)}, "", refused(19, "1 3"), [name(2)]),
    "an empty segment first": ({name(1): b"", name(2): ONE}, "", refused(16), [name(2)]),
    "a range behind the end": (WHOLE, "3 5", "refused 22 recovering 3 to 5", []),
    "a range that falls": (WHOLE, "3 2", "refused 12 recovering 3 to 2", []),
    "one end is 0": (WHOLE, "0 2", "refused 11 recovering 0 to 2", []),
    "the accident": (
        ACCIDENT, "1 2", up_to(2, "ok 2 records in 1 images"),
        [f"slot 0: {name(1)}, 8197 bytes, 2 records, 1 to 2{AT_4096}{NOT_LOOKED_AT}"]),
    "the accident, all records asked for": (
        ACCIDENT, "", refused(17, "1 2"), [f"slot 0: {name(1)}, 8197 bytes, 2 records, 1 to 2{AT_4096}; refused 17 at byte 8192"]),
    "the accident, and E is not there": (ACCIDENT, "1 3", refused(17), [name(1)]),
    "the accident, and S is not there": ({name(1): TWO + record(5)[:5]}, "2 4", "refused 21 recovering 2 to 4", []),
    "one byte of a header behind E": ({name(1): ONE + record(3)[:1]}, "1 2", up_to(2, "ok 2 records in 1 images"), []),
    "eleven bytes of a header behind E": ({name(1): ONE + record(3)[:11]}, "1 2", up_to(2, "ok 2 records in 1 images"), []),
    "random bytes behind E": (
        {name(1): ONE + noise(5000)}, "1 2", up_to(2, "ok 2 records in 1 images"),
        [f"slot 0: {name(1)}, 13192 bytes, 2 records, 1 to 2{AT_4096}{NOT_LOOKED_AT}"]),
    "random bytes in a later image": (
        {name(1): ONE, name(2): noise(5000)}, "1 2", up_to(2, "ok 2 records in 2 images"), [f"slot 1: {name(2)}, 5000 bytes, not looked at"]),
    "an empty image behind E, then a full one": (
        {name(1): ONE, name(2): b"", name(3): TWO}, "1 2", up_to(2, "ok 2 records in 3 images"),
        [f"slot 1: {name(2)}, 0 bytes, 0 records", f"slot 2: {name(3)}, 8192 bytes, not looked at"]),
    "an empty image, then a full one": ({name(1): ONE, name(2): b"", name(3): TWO}, "", refused(16, "1 2"), [name(3)]),
    "a fault behind E, and a gap": ({**ACCIDENT, name(3): TWO}, "1 2", STRANGE, [name(3)]),
    "E's header is cut": ({name(1): ONE[: PAGE + 11]}, "1 2", refused(17), [name(1)]),
    "E's payload is cut": ({name(1): ONE[: PAGE + 14]}, "1 2", refused(20), [name(1)]),
    "zeros before E": ({name(1): record(1) + bytes(PAGE) + record(2)}, "1 2", refused(19), [name(1)]),
    "random bytes before E's image": ({name(1): noise(5000, 2), name(2): ONE}, "1 2", refused(18), [name(1)]),
    "an empty image before E's": ({name(1): b"", name(2): ONE}, "1 2", refused(16), [name(2)]),
    "behind the last id of all": (
        {name(1): record(2**64 - 1) + noise(9)}, "", up_to(2**64 - 1, "ok 1 records in 1 images"), [name(1)]),
}


def make(path, files):
    """The folder, with these files."""
    os.mkdir(path)
    for file, content in files.items():
        at = os.path.join(path, file)
        if callable(content):
            content(at)
        else:
            with open(at, "wb") as out:
                out.write(content)
