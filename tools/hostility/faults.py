"""The table of faults, stops and limits: what a run answers, and what it leaves, whichever of its calls fails, wherever its store is
cut, and at each limit. What is wanted is worked out by hand, or by a plain filter."""
from hostility.refused import Case, filled_room, is_push, ran, rows, store_before
from hostility.runs import NOT_A_STORE, SHAPE, in_parallel, new_room, run, write

PAGE, LINE, WORD = 32768, 32, 8  # lines of a page, bytes of a line and of a word
MIB = 1 << 20

A = ['{"type":"Push","n":1}', '{"type":"Open","n":2}', '{"type":"Push","n":3}']
B, C = '{"type":"Push","n":5}', '{"type":"Push","n":6}'
LONG = ['{"p":"%s"}' % ("x" * (length - 8)) for length in (524000, 524000, 600)]
FILES = {"a": A, "b": [B], "c": [C], "long": LONG}
REGISTER, SCAN, EXPLAIN = "register t as take type", 'scan t = "Push"', 'explain t = "Push"'
CREATED, OPENED, CHECKPOINT, CLOSED = "created\n", "opened {}\n", "checkpoint {}\n", "closed {}\n"
REGISTERED, STORED = "registered t id 0 from {}\n", "ingested {} stored {} refused 0\n"


def script(*lines):
    return "".join(f"{line}\n" for line in lines)


def found(log, numbers, ends, opens="none"):
    """The text of a scan below a number that found those pushes of the log that are among some numbers."""
    listed = [(number, line) for number, line in rows(log, is_push) if number in numbers]
    head = f"{SCAN} in 0..{ends} found {len(listed)} open {opens}\n"
    return head + "".join(f"{number} {len(line)} {line}\n" for number, line in listed)


def found_all(log):
    return found(log, range(len(log)), len(log))


def placed(records):
    """The log of records under a definition of their type: no record crosses a page's end, and padding takes a number, and the room
    that the record would have taken."""
    log, at = [], 0
    for record in records:
        words = 1 + (3 + 1 if '"type"' in record else 0) + -(-len(record) // WORD)
        lines = -(-words * WORD // LINE)
        if at // PAGE != (at + lines - 1) // PAGE:
            log.append(None)
            at += lines
        log.append(record)
        at += lines
    return log


def beside(log, numbers, ends, opens):
    """An answer of two lanes of which each stores a record, and the first then scans: one that is in flight is open."""
    first = STORED.format("b", 1) + found(log, numbers, ends, opens)
    block = f"lanes 0..2\nlane 1\n{first}lane 2\n{STORED.format('c', 1)}end\n"
    return [CREATED, REGISTERED.format(0), block, found_all(log), CLOSED.format(2)], log


INDEXED = script(REGISTER, "ingest json a", EXPLAIN, SCAN)
BETWEEN = script("ingest json a", REGISTER, "ingest json a", EXPLAIN, SCAN)
LANES = script(REGISTER, "lanes", "lane", "ingest json b", SCAN, "lane", "ingest json c", "end", SCAN)
OLDER = script("lanes", "lane", "lane", SCAN, "end")
ROLLING = script(REGISTER, "ingest json long", "checkpoint", "ingest json a", SCAN, "checkpoint", "ingest json long")
AGAIN = script(SCAN, "checkpoint", "ingest json a", SCAN)
TWICE, TABLES = A + A, placed(LONG + A + LONG)

SELECTED = [f"select found 2 of 3 refused 0\n2 21 {A[2]}\n0 21 {A[0]}\n"]
BETWEEN_TOLD = [CREATED, STORED.format("a", 3), REGISTERED.format(3), STORED.format("a", 3)]
BETWEEN_TOLD += [f"{EXPLAIN} in 0..6: index 3..6 by 0 full 0..3\n", found_all(TWICE), CLOSED.format(6)]
OLDER_TOLD = [OPENED.format(3), f"lanes 3..3\nlane 1\nlane 2\n{found_all(A)}end\n", CLOSED.format(3)]
ROLLING_TOLD = [CREATED, REGISTERED.format(0), STORED.format("long", 3), CHECKPOINT.format(4), STORED.format("a", 3)]
ROLLING_TOLD += [found_all(TABLES[:7]), CHECKPOINT.format(7), STORED.format("long", 3), CLOSED.format(11)]
AGAIN_TOLD = [OPENED.format(11), found_all(TABLES), CHECKPOINT.format(11), STORED.format("a", 3), found_all(TABLES + A), CLOSED.format(14)]
EITHER = [([B, C], [0], 1, "none"), ([B, C], [0], 2, "1"), ([B, C], [0, 1], 2, "none"), ([C, B], [1], 2, "0"), ([C, B], [0, 1], 2, "none")]

CASES = {
    "a selection": Case(FILES, [], [], ["select", "take type", '"Push"', "a"], [(SELECTED, [])]),
    "records before and after a definition": Case(FILES, [], [], BETWEEN, [(BETWEEN_TOLD, TWICE)]),
    "two lanes": Case(FILES, [], [], LANES, [beside(*one_of_them) for one_of_them in EITHER]),
    "two lanes over a store": Case(FILES, [INDEXED], A, OLDER, [(OLDER_TOLD, A)]),
    "a log of several tables": Case(FILES, [], [], ROLLING, [(ROLLING_TOLD, TABLES)]),
    "a store of several tables": Case(FILES, [ROLLING], TABLES, AGAIN, [(AGAIN_TOLD, TABLES + A)]),
}
CALLS = {  # which call of a run fails, one after the other
    "memory": "an allocation is refused",
    "input": "a file isn't opened or read",
    "output": "a write of the output fails",
    "disk": "a call of the store fails",
    "short": "a read or a write moves one byte",
    "signal": "a call is interrupted",
}

# A store of three records has 180,416 bytes, and its second slot counts.
STORE, BYTES = CASES["two lanes over a store"], 180416
DAMAGED = "fault store damaged {}\n"
EMPTY = (0, "created\nclosed 0\n", "")
CUTS = {0: EMPTY, 1: (4, "", NOT_A_STORE), 4096: (4, "", NOT_A_STORE), BYTES: (0, "opened 3\nclosed 3\n", "")}
CUTS |= {length: (4, "", DAMAGED.format(0)) for length in (4097, 8192, 94208, 180223, 180224, 180225)}
CUTS |= {length: (4, "", DAMAGED.format(2)) for length in (180400, 180415)}
CUTS_BEHIND = [0, 1, 4097, 180224, 180225, 180256, 180288, 180352]  # lengths of the file once the store is open

SELECT_A = "select found {} of 3 refused 0\n"
NAME, NOTS = "x" * 32, "flag when " + "not " * 16
LIMITS = {  # a script, or the words of a selection and its file; the answer
    "script of 1,048,576 bytes": ("\n" * MIB, None, EMPTY),
    "script of 1,048,577 bytes": ("\n" * (MIB + 1), None, (2, "", "fault script too long 1048577\n")),
    "definition of 4,096 bytes": (["take x" + " " * 4090, "1"], A, (0, SELECT_A.format(0), "")),
    "definition of 4,097 bytes": (["take x" + " " * 4091, "1"], A, (1, "", "fault usage definition too long 4097\n")),
    "the same in a script": ("register t as take x" + " " * 4091, None, (2, "", "fault script definition line 1 too long 4097\n")),
    "16 `not`": ([NOTS + "type exists", "true"], A, (0, SELECT_A.format(3) + "".join(f"{n} 21 {A[n]}\n" for n in (2, 1, 0)), "")),
    "17 `not`": ([NOTS + "not type exists", "true"], A, (1, "", "fault usage definition too deep at 74\n")),
    "126 arrays in an object": (["take x", "1"], ['{"a":%s%s}' % ("[" * 126, "]" * 126)], (0, "select found 0 of 1 refused 0\n", "")),
    "127 arrays in an object": (["take x", "1"], ['{"a":%s%s}' % ("[" * 127, "]" * 127)], (0, "select found 0 of 0 refused 1\n", "")),
    "128 arrays in an object": (["take x", "1"], ['{"a":%s%s}' % ("[" * 128, "]" * 128)], (0, "select found 0 of 0 refused 1\n", "")),
    "name of 32 bytes": (f"register {NAME} as take x", None, (0, f"created\nregistered {NAME} id 0 from 0\nclosed 0\n", "")),
    "name of 33 bytes": (f"register {NAME}x as take x", None, (2, "", "fault script unexpected line 1\n")),
}


def cut(store, length):
    """A run without a statement on the first bytes of a store."""
    room = new_room()
    write(room, "store", store[:length])
    write(room, "script", "")
    answer = run(room, ["run", "store", "script"] + SHAPE * (length == 0))
    left = (room / "store").read_bytes()
    return f"{length} bytes", answer, answer == CUTS[length] and (left == store[:length] or answer[0] == 0)


def cuts():
    """A store that is cut to a length, before a run."""
    store = store_before(STORE)
    yield "the store's length", (0, f"{len(store)}", ""), len(store) == BYTES
    yield from in_parallel(lambda length: cut(store, length), CUTS)


def cut_behind(store, length):
    """A run whose store is cut once it has told that it is open: its scan finds damage, and its block isn't told."""
    room = filled_room(STORE, store)
    answer, was_cut = ran(room, STORE.command, "cut 1", FISH_CUT=length)
    right = answer in [(4, OPENED.format(3), DAMAGED.format(number)) for number in range(4)]
    return f"cut to {length} bytes once it is open", answer, was_cut and right


def cuts_behind():
    store = store_before(STORE)
    return in_parallel(lambda length: cut_behind(store, length), CUTS_BEHIND)


def limit(name):
    room, (asked, lines, wanted) = new_room(), LIMITS[name]
    if lines is None:
        write(room, "script", asked)
        answer = run(room, ["run", "store", "script", *SHAPE])
    else:
        write(room, "file", script(*lines))
        answer = run(room, ["select", *asked, "file"])
    return name, answer, answer == wanted and (room / "store").exists() == (lines is None and wanted[0] == 0)


def limits():
    return in_parallel(limit, LIMITS)
