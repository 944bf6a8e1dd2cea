"""Files that are none, that may not be read, and that are long, with the answers that docs/FORMATS.md gives."""
import itertools
import json
import os
import threading

from hostility.runs import SHAPE, in_parallel, new_room, run, write

MIB = 1 << 20
NOBODY = 65534
FAULTS = {0: "", 1: "fault usage ", 2: "fault script ", 3: "", 4: "fault store ", 5: "fault disk\n", 6: "fault input\n"}
ODD = {  # the status with it as SCRIPT, as FILE of `select`, as that of an `ingest`, as STORE
    "folder": (6, 6, 6, 5),
    "pipe": (0, 0, 0, 5),
    "to_nothing": (6, 6, 6, 0),
    "to_no_folder": (6, 6, 6, 5),
    "to_itself": (6, 6, 6, 5),
    "no_rights": (6, 6, 6, 5),
    "to_be_read": (0, 0, 0, 5),
    "empty": (0, 0, 0, 0),
    "text": (2, 0, 0, 4),
    "text/below": (6, 6, 6, 5),
    "n" * 255: (6, 6, 6, 0),
    "n" * 256: (6, 6, 6, 5),
    "n/" * 3000: (6, 6, 6, 5),
    "": (6, 6, 2, 5),
    "/dev/null": (0, 0, 0, 5),
    "/dev/full": (2, 3, 3, 5),
}


def odd_room():
    room = new_room()
    (room / "folder").mkdir()
    os.mkfifo(room / "pipe")
    (room / "pipe").chmod(0o666)
    for name, target in {"to_nothing": "nothing", "to_no_folder": "none/file", "to_itself": "to_itself"}.items():
        (room / name).symlink_to(target)
    for name, rights in {"no_rights": 0, "to_be_read": 0o444, "empty": 0o666}.items():
        write(room, name, "")
        (room / name).chmod(rights)
    write(room, "text", '{"n":1}\n')
    (room / "text").chmod(0o666)
    return room


def become_nobody():
    if os.geteuid() == 0:
        os.setgroups([])
        os.setgid(NOBODY)
        os.setuid(NOBODY)


def odd(name, role):
    room = odd_room()
    write(room, "script", f"ingest json {json.dumps(name)}\n" if role == 2 else "")
    script, store = name if role == 0 else "script", name if role == 3 else "store"
    if name == "pipe":
        # A reader of a pipe waits for a writer: here for one that writes nothing.
        threading.Thread(target=lambda: open(room / "pipe", "wb").close(), daemon=True).start()
    words = ["select", "take n", "2", name] if role == 1 else ["run", store, script, *SHAPE]
    found = run(room, words, become_nobody)
    left = (room / "text").read_text() == '{"n":1}\n'
    wanted = ODD[name][role]
    return f"{name[:20]!r} as {role}", found, found[0] == wanted and found[2].startswith(FAULTS[wanted]) and left


def odd_files():
    return in_parallel(lambda one: odd(*one), itertools.product(ODD, range(4)))


def nested(levels):
    return '{"a":' + "[" * (levels - 1) + "]" * (levels - 1) + "}\n"


LONG = {  # as a file of JSON Lines: how many records it has, and how many lines are refused; None where it is too long
    "empty": ("", (0, 0)),
    "empty lines": ("\n" * 1000000, (0, 0)),
    "blank line": (" " * 524288, (0, 0)),
    "long blank line": (" " * 524289, (0, 1)),
    "mark alone": ("\ufeff", (0, 0)),
    "NUL bytes": ('\0\0\n{"a":"\0"}\n\0', (0, 3)),
    "127 levels": (nested(127), (1, 0)),
    "128 levels": (nested(128), (0, 1)),
    "10,000 levels": (nested(10000), (0, 1)),
    "a name often": ('{"n":0' + ',"n":1' * 80000 + "}\n", (1, 0)),
    "line of 64 MiB": ("x" * (64 * MIB), (0, 1)),
    "64 MiB and a byte": ("x" * (64 * MIB + 1), None),
}
SCRIPTS = {  # the status, and what the line on standard error begins with
    "a million empty lines": ("\n" * 1000000, 0, ""),
    "as long as it may be": ("\n" * MIB, 0, ""),
    "too long": ("\n" * (MIB + 1), 2, "fault script too long 1048577\n"),
    "much too long": ("\n" * (64 * MIB), 2, "fault script too long 1048577\n"),
    "one line": ("x" * MIB, 2, "fault script unexpected line 1\n"),
    "NUL bytes": ("\n\0\n", 2, "fault script unexpected line 2\n"),
    "no text": (b"\n\xff\n", 2, "fault script not text line 2\n"),
    "no text in a comment": (b"# \xff\0\n", 0, ""),
    "no end of a string": ('ingest json "x\n', 2, "fault script unexpected line 1\n"),
    "long definition": ("register t as take " + "x" * 4092, 2, "fault script definition line 1 too long 4097\n"),
    "long name": (f"register {'x' * 33} as take x", 2, "fault script unexpected line 1\n"),
}


def long_files():
    room = new_room()
    for name, (text, counts) in LONG.items():
        write(room, "file", text)
        write(room, "script", "ingest json file\n")
        count, refused = counts or (0, 0)
        selected = f"select found 0 of {count} refused {refused}\n" if counts else "refused select file too long\n"
        ingested = f"ingested file stored {count} refused {refused}\n" if counts else "refused ingest file too long stored 0 refused 0\n"
        found = run(room, ["select", "take n", "2", "file"])
        yield f"select of {name}", found, found == (0 if counts else 3, selected, "")
        (room / "store").unlink(missing_ok=True)
        found = run(room, ["run", "store", "script", *SHAPE])
        yield f"ingest of {name}", found, found == (0 if counts else 3, f"created\n{ingested}closed {count}\n", "")
    os.truncate(room / "file", 1 << 30)
    found = run(room, ["select", "take n", "2", "file"])
    yield "select of 1 GiB", found, found == (3, "refused select file too long\n", "")


def long_scripts():
    room = new_room()
    for name, (text, status, line) in SCRIPTS.items():
        write(room, "script", text)
        (room / "store").unlink(missing_ok=True)
        found = run(room, ["run", "store", "script", *SHAPE])
        made = (room / "store").exists()
        yield name, found, (found[0], found[2], made) == (status, line, status == 0)
    for name, definition in {"no text": b"\xff", "long": "x" * 100000, "empty": ""}.items():
        found = run(room, ["select", definition, "1", "script"])
        yield f"definition, {name}", found, found[0] == 1 and found[2].startswith(FAULTS[1])
