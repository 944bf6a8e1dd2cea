"""Runs of the program in folders of their own, which every user may use."""
import atexit
import concurrent.futures
import os
import pathlib
import shutil
import subprocess
import tempfile

SECONDS = 300  # after which a run hangs
SHAPE = ["--pages", "1", "--bits", "4"]
NOT_A_STORE = "fault store not a store\n"
ROOM = pathlib.Path(tempfile.mkdtemp(prefix="hostile-"))
PROGRAM = ROOM / "fishstore"
atexit.register(shutil.rmtree, ROOM, ignore_errors=True)


def take(program):
    """Copies the program to where every user may run it."""
    ROOM.chmod(0o755)
    shutil.copy(program, PROGRAM)
    PROGRAM.chmod(0o755)


def run(room, words, prepare=None, **streams):
    """The status of a run in a folder, and what it writes."""
    streams = {"stdout": subprocess.PIPE, "stdin": subprocess.DEVNULL, **streams}
    try:
        ran = subprocess.run(
            [PROGRAM, *words], cwd=room, stderr=subprocess.PIPE, timeout=SECONDS, preexec_fn=prepare, **streams
        )
    except subprocess.TimeoutExpired:
        return "hangs", "", ""
    return ran.returncode, (ran.stdout or b"").decode(errors="replace"), (ran.stderr or b"").decode(errors="replace")


def new_room():
    """A new folder."""
    room = pathlib.Path(tempfile.mkdtemp(dir=ROOM))
    room.chmod(0o777)
    return room


def write(room, name, text):
    (room / name).write_bytes(text.encode() if isinstance(text, str) else text)


def records(kind, count, width):
    return "".join('{"kind":"%s","at":%d,"text":"%s"}\n' % (kind, at, "x" * width) for at in range(count))


def in_parallel(case, all_of_them):
    """What a function gives for each of them, in order."""
    with concurrent.futures.ThreadPoolExecutor(os.cpu_count()) as pool:
        yield from pool.map(case, all_of_them)
