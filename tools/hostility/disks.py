"""Disks that are full, little memory, outputs that take nothing or not all: no record is lost that a checkpoint had told."""
import fcntl
import itertools
import os
import resource
import signal
import subprocess

from hostility.runs import NOT_A_STORE, PROGRAM, SECONDS, SHAPE, in_parallel, new_room, records, run, write

PARTS = 4


def disk_room():
    room = new_room()
    script = "register all as flag when kind exists\n"
    for part in range(PARTS):
        write(room, f"part{part}", records(f"part{part}", 40, 150))
        script += f"ingest json part{part}\ncheckpoint\n"
    write(room, "script", script)
    write(room, "look", "scan all = true by full\n")
    return room


def kept(room, told, rounds=1):
    """Whether the next run has all records that were told as committed, and no other than a first part of those that were sent."""
    counts = [int(line.split()[1]) for line in told.split("\n")[:-1] if line.startswith(("checkpoint ", "closed "))]
    status, text, fault = run(room, ["run", "store", "look"])
    if "created" not in told:
        return text.startswith("created") or text.startswith("opened 0") or (status, fault) == (4, NOT_A_STORE)
    sent = [line for part in range(PARTS) for line in (room / f"part{part}").read_text().splitlines()] * rounds
    rows = [line.split(" ", 2)[2] for line in text.split("\n") if line[:1].isdigit()][::-1]
    return status in (0, 3) and text.startswith("opened ") and len(rows) >= max(counts, default=0) and rows == sent[: len(rows)]


def limited(size, action):
    """A run whose files have at most so many bytes; the system's signal is ignored, or ends it."""
    def prepare():
        signal.signal(signal.SIGXFSZ, action)
        resource.setrlimit(resource.RLIMIT_FSIZE, (size, size))

    room = disk_room()
    found = run(room, ["run", "store", "script", *SHAPE], prepare, restore_signals=False)
    wanted = (5, "fault disk\n") if action == signal.SIG_IGN else (-signal.SIGXFSZ, "")
    return f"limit {size}", found, (found[0], found[2]) == wanted and kept(room, found[1])


def limits():
    room = disk_room()
    run(room, ["run", "store", "script", *SHAPE])
    sizes = range(0, (room / "store").stat().st_size - 1, 5003)
    return in_parallel(lambda one: limited(*one), itertools.product(sizes, (signal.SIG_IGN, signal.SIG_DFL)))


MOUNTED = 'mount -t tmpfs -o size="$1"k fish mnt || exit 99; "$0" run mnt/store script --pages 1 --bits 4; s=$?; cat mnt/store > store; exit $s'


def small_disk(size):
    """A run whose store is on a file system of so many KiB, where this user may mount one."""
    room = disk_room()
    (room / "mnt").mkdir()
    words = ["unshare", "-Urm", "sh", "-c", MOUNTED, PROGRAM, str(size)]
    ran = subprocess.run(words, cwd=room, stdout=subprocess.PIPE, stderr=subprocess.DEVNULL, text=True, timeout=SECONDS)
    return f"{size} KiB", (ran.returncode, ran.stdout, ""), ran.returncode == 5 and kept(room, ran.stdout)


def small_disks():
    probe = subprocess.run(["unshare", "-Urm", "sh", "-c", "mount -t tmpfs fish /mnt"], stderr=subprocess.DEVNULL)
    return in_parallel(small_disk, range(4, 212, 8)) if probe.returncode == 0 else []

def with_memory(kib):
    """A run with so much memory. With too little of it the system doesn't load the program (127)."""
    room = disk_room()
    size = kib << 10
    found = run(room, ["run", "store", "script", *SHAPE], lambda: resource.setrlimit(resource.RLIMIT_AS, (size, size)))
    right = found[0] == 127 or (found[0], found[2]) in ((0, ""), (8, "fault memory\n"))
    return f"memory of {kib} KiB", found, right and kept(room, found[1])


def little_memory():
    return in_parallel(with_memory, range(3000, 9000, 60))


def stored_room():
    """A folder with a store that has what one run of its script stored, and what that run told."""
    room = disk_room()
    return room, run(room, ["run", "store", "script", *SHAPE])[1]


def close(streams):
    return lambda: [os.close(stream) for stream in streams]


def closed():
    """Runs with standard streams closed, or an output that takes nothing: the store keeps what it had, and gets nothing else."""
    for streams in ([1], [1, 2], [0, 1], [0, 1, 2]):
        room, told = stored_room()
        found = run(room, ["run", "store", "script", *SHAPE], close(streams))
        yield f"run without {streams}", found, found[0] == 7 and kept(room, told, rounds=2)
        found = run(room, ["select", "take kind", '"part1"', "part1"], close(streams))
        yield f"select without {streams}", found, found[0] == 7
    with open("/dev/full", "wb") as full:
        room, told = stored_room()
        found = run(room, ["run", "store", "script", *SHAPE], stdout=full)
        yield "run to /dev/full", found, (found[0], found[2]) == (7, "fault output\n") and kept(room, told, rounds=2)
    for streams in ([0], [2], [0, 2]):
        found = run(disk_room(), ["run", "store", "script", *SHAPE], close(streams))
        yield f"run without {streams}", found, found[0] == 0 and found[1].endswith(f"closed {PARTS * 40}\n")


def read_some(room, words, count):
    """A run whose reader ends after so many bytes: its status, and what was read."""
    reads, writes = os.pipe()
    fcntl.fcntl(writes, fcntl.F_SETPIPE_SZ, 4096)
    with subprocess.Popen([PROGRAM, *words], cwd=room, stdout=writes, stderr=subprocess.PIPE) as begun:
        os.close(writes)
        with open(reads, "rb") as reader:
            told = reader.read(count)
        fault = begun.stderr.read().decode(errors="replace")
        return begun.wait(SECONDS), told.decode(errors="replace"), fault


def readers():
    for count in (0, 1, 7, 8, 60, 200, 400, 4096, 20000):
        room, told = stored_room()
        with open(room / "script", "a", encoding="utf-8") as script:
            script.write("scan all = true\n" * 3)
        found = read_some(room, ["run", "store", "script", *SHAPE], count)
        yield f"run, {count} bytes", found, found[0] == 7 and kept(room, told + found[1], rounds=2)
        write(room, "big", records("a", 400, 100))
        found = read_some(room, ["select", "take kind", '"a"', "big"], count)
        yield f"select, {count} bytes", found, (found[0], found[2]) == (7, "fault output\n")
