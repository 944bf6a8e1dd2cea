"""Tests over objects in memory, with each allocation refused in turn. A disk or an output in memory that can't grow fails, and a gate
orders what lanes do.

Where a command ends otherwise than its test wants, the test tells both texts: the command's status has to be that of its fault, and its
text a first part of what the test has by hand. Or the test itself ends for want of memory. Where memory for a thread is refused, lanes
run one after the other, and no gate can hold one beside another: such a run ends without a fault, and scans find what is there then.
"""
import re
import shutil
import subprocess

from hostility.refused import between, has_failed, up_to_the_first_without
from hostility.runs import SECONDS, new_room

TESTS = {  # by its name, what the test runs
    "commands::commands_end_by_what_they_are": "commands",
    "stores::a_store_is_opened_again": "stores that are opened again",
    "gates::a_lane_scans_while_a_record_of_another_is_in_flight": "lanes that a gate holds",
}
FAULTS = {("8", "fault memory"), ("5", "fault disk"), ("7", "fault output")}
ENDED = r"(\d) (fault [^\n]*?) (?:true|false) \d+\n(.*?)"
TOLD = re.compile(f": {ENDED}, not {ENDED}\n\Z", re.DOTALL)
FOUND = re.compile(r"scan |\d+ \d+ ")  # what a scan says, and its rows


def others(text):
    """The lines of a report that no scan says."""
    return [line for line in text.split("\n") if not FOUND.match(line)]


def one(program, test, number):
    """A test with an allocation refused: whether one was, what it answered, and whether that is right."""
    room = new_room()
    how = {"cwd": room, "env": between(room, f"memory {number}"), "timeout": SECONDS, "capture_output": True, "text": True}
    ran = subprocess.run([program, test], **how)
    failed = has_failed(room)
    shutil.rmtree(room)
    told = TOLD.search(ran.stderr)
    if told:
        stopped = (told[1], told[2]) in FAULTS and told[6].startswith(told[3])
        in_turn = test.startswith("gates::") and (told[1], told[2]) == ("0", "fault none") and others(told[3]) == others(told[6])
        right = failed and (stopped or in_turn)
        return failed, (told[1], told[3], told[2]), right
    return failed, (ran.returncode, ran.stdout, ran.stderr), ran.returncode == 0 or (failed and ran.stderr.startswith("error: AllocError"))


def sweep(program, test, each=1):
    """A test with each allocation refused, or each so many one, up to the first time that none is."""
    for number, *rest in up_to_the_first_without(lambda at: one(program, test, at), each):
        yield f"memory {number}", *rest
