"""Runs of which one call of the system fails, and what they leave in their store.

The first run of a case has its first call of a kind fail, the next one its second, and so on up to the first run in which none fails.
Each ends with the status of that kind, wrote a first part of the text, and left a first part of the log, with all that was told as
committed. A run's end is also the moment of a crash: what a disk may have kept by then of its last writes is opened, too.
"""
import dataclasses
import itertools
import os
import pathlib
import re
import shutil
import struct
import subprocess

from hostility.runs import NOT_A_STORE, ROOM, SHAPE, in_parallel, new_room, run, write

SOURCE, SHIM = pathlib.Path(__file__).with_name("refuse.c"), ROOM / "refuse.so"
COUNTED = ("memory", "input", "output", "disk", "cut", "short", "signal")  # in the order of the numbers that a run leaves
FAULTS = {"memory": (8, "fault memory\n"), "input": (6, "fault input\n"), "output": (7, "fault output\n"), "disk": (5, "fault disk\n")}
PICKS = range(8)  # of what a crash leaves
FOREIGN = b"\x01"  # what every byte of a write may be that a crash tore
AT_ONCE = 16  # runs
SCAN = 'scan t = "Push"'
LOOK = f"{SCAN}\nregister look as flag when not nothing exists\nscan look = true by full\n"
ROW = re.compile(r"(\d+) (\d+) (.*)")


@dataclasses.dataclass
class Case:
    """A run: the scripts of the runs before it on its store, and the log that these leave; its script, or its words; and each answer
    that it may give: the text in the parts that its blocks write, and the log then. A log is its records by number, `None` for padding."""

    files: dict
    before: list
    had: list
    command: object
    answers: list


def is_push(line):
    return '"type":"Push"' in line


def rows(log, has=lambda line: True):
    """The numbers and lines of the records that have something, newest first."""
    return [(number, line) for number, line in reversed(list(enumerate(log))) if line is not None and has(line)]


# A run of a case

def build():
    """Builds what stands between a run and the C library."""
    if not shutil.which("cc"):
        raise SystemExit("faults: there is no `cc`")
    subprocess.run(["cc", "-O2", "-shared", "-fPIC", "-o", SHIM, SOURCE, "-ldl"], check=True)


def filled_room(case, store):
    room = new_room()
    for name, lines in case.files.items():
        write(room, name, "".join(f"{line}\n" for line in lines))
    if store is not None:
        write(room, "store", store)
    return room


def store_of(room):
    return (room / "store").read_bytes() if (room / "store").exists() else b""


def store_before(case):
    """The store that the runs before a case leave, if there are any."""
    room = filled_room(case, None)
    for text in case.before:
        write(room, "script", text)
        if run(room, ["run", "store", "script", *SHAPE])[0]:
            raise SystemExit("faults: the store of a case isn't made")
    return store_of(room) if case.before else None


def ran(room, command, call, **more):
    """What a run of which a call may fail answers, and whether one failed."""
    if isinstance(command, str):
        write(room, "script", command)
        command = ["run", "store", "script", *SHAPE]
    return run(room, command, env=between(room, call, **more)), has_failed(room)


def between(room, call, **more):
    """The environment of a run of which a call is to fail."""
    write(room, "count", bytes(8 * (len(COUNTED) + 1)))
    named = {"FISH_CALL": call, "FISH_COUNT": room / "count", "FISH_TRACE": room / "trace", "LD_PRELOAD": SHIM, **more}
    return {**os.environ, **{name: str(it) for name, it in named.items()}}


def has_failed(room):
    """Whether a call of the run failed."""
    return any((room / "count").read_bytes()[-8:])


# What a crash leaves

def traced(room):
    """The writes and syncs of the store that a run made: the place and the bytes of a write, and `None` for a sync."""
    told, at = (room / "trace").read_bytes() if (room / "trace").exists() else b"", 0
    while at < len(told):
        is_sync, place, length = struct.unpack_from("<3Q", told, at)
        at += 24
        yield None if is_sync else (place, told[at : at + length])
        at += length


def put(store, place, piece):
    store[place : place + len(piece)] = piece


def crashed(store, calls):
    """What a crash may leave of the store, for each pick: all up to the last sync, and of each write after it nothing, its first half, all
    of it, or foreign bytes, as two bits of the pick say, the lowest for the first. A write past an end that was lost leaves nothing."""
    synced, first = bytearray(store), max((at for at, call in enumerate(calls, 1) if call is None), default=0)
    for place, piece in filter(None, calls[:first]):
        put(synced, place, piece)
    for pick in PICKS:
        left = synced[:]
        for place, piece in calls[first:]:
            parts = [b"", piece[: len(piece) // 2], piece, FOREIGN * len(piece)]
            if place <= len(left):
                put(left, place, parts[pick % 4])
            pick //= 4
        yield bytes(left)


# What a store has

def looked(store):
    """What a run tells of a store: how it ended, its first line, whether no definition had the name, and which pushes and which records
    it found."""
    room = new_room()
    write(room, "store", store)
    write(room, "look", LOOK)
    status, text, fault = run(room, ["run", "store", "look"])
    shutil.rmtree(room)
    first, _, rest = text.partition("\n")
    pushes, _, everything = rest.partition("registered look ")
    listed = [[(int(row[1]), row[3]) for row in map(ROW.fullmatch, part.split("\n")) if row] for part in (pushes, everything)]
    return (status, fault), first, pushes.startswith("refused scan t unknown name "), *listed


def is_first_part(store, logs, least):
    """Whether a store opens with a first part of one of these logs, and with so many numbers at least."""
    ended, first, unknown, pushes, records = looked(store)
    if ended not in ((0, ""), (3, "")) or not first.startswith("opened "):
        return False
    count = int(first.split()[1])
    return any(
        least <= count <= len(log) and records == rows(log[:count]) and (unknown or pushes == rows(log[:count], is_push)) for log in logs
    )


def is_none_yet(store):
    """Whether a store of which nothing was told is made now, is refused as none, or has nothing."""
    ended, first, *_ = looked(store)
    return first in ("created", "opened 0") or ended in ((4, NOT_A_STORE), (4, "fault store damaged 0\n"))


def told(text):
    """How many numbers a text tells as committed, if it tells that there is a store."""
    whole = [line.split() for line in text.split("\n")[:-1]]
    counts = [int(line[1]) for line in whole if line[0] in ("opened", "checkpoint", "closed")]
    return max(counts + [0] * (["created"] in whole), default=None)


def is_kept(case, store, text):
    """Whether a store that a run left has what the text told, or where it told of none what it had."""
    least = told(text)
    if least is not None:
        return is_first_part(store, [log for _, log in case.answers], least)
    return is_first_part(store, [case.had], len(case.had)) if case.before else is_none_yet(store)


# The runs of a case

def parts_of(pieces):
    """The first parts of a text that end where a block does."""
    return ["".join(pieces[:count]) for count in range(len(pieces) + 1)]


def is_answer(case, kind, answer, failed):
    """Whether a run ended as it may."""
    status, text, fault = answer
    whole = (status, fault) == (0, "") and any(text == "".join(pieces) for pieces, _ in case.answers)
    if not failed or kind not in FAULTS or (kind == "memory" and whole):
        return whole
    if kind in ("memory", "output"):
        right = any("".join(pieces).startswith(text) for pieces, _ in case.answers)
    else:
        right = any(text in parts_of(pieces) for pieces, _ in case.answers)
    return right and (status, fault) == FAULTS[kind]


def one(case, before, kind, number):
    """A run whose call of a kind and number fails: whether one did, what it answered, whether that and what it left is right, and how
    many stores were looked at."""
    room = filled_room(case, before)
    answer, failed = ran(room, case.command, f"{kind} {number}")
    right, stores = is_answer(case, kind, answer, failed), set()
    if isinstance(case.command, str):
        stores = {store_of(room), *crashed(before or b"", list(traced(room)))}
        right = right and all(is_kept(case, store, answer[1]) for store in stores)
    shutil.rmtree(room)
    return failed, answer, right, len(stores)


def up_to_the_first_without(one_of_them, each=1):
    """What a run with each call failing gives, or each so many calls one, up to the first in which none does."""
    for first in itertools.count(1, AT_ONCE * each):
        numbers = range(first, first + AT_ONCE * each, each)
        for number, (failed, *rest) in zip(numbers, in_parallel(one_of_them, numbers)):
            yield number, *rest
            if not failed:
                return


def sweep(case, kind, each=1):
    """The runs of a case with each call of a kind failing: each, and what `one` says of it."""
    before = store_before(case)
    for number, *rest in up_to_the_first_without(lambda at: one(case, before, kind, at), each):
        yield f"{kind} {number}", *rest
