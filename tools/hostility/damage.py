"""Stores of which a byte was changed, or which were cut."""
import shutil

from hostility.runs import NOT_A_STORE, SHAPE, in_parallel, new_room, records, run, write

GATES, BODIES, LINES = (0, 4096), (8192, 94208), 180224  # of a store's file, in bytes
USED = 64 + 3 * 320  # bytes of a body that the small store uses, and a row more
VERSION = 4  # the byte of a record's header
LOOK = 'scan kind = "a"\nscan kind = "b" by full\nscan all = true by full\n'


def small_store():
    """The bytes of a store that two runs made, what a run tells of it, and where each of its entries ends in the file."""
    room = new_room()
    write(room, "json", records("a", 2, 3) + records("b", 2, 40))
    write(room, "csv", "a,1\nb,2\n")
    write(room, "look", LOOK)
    write(room, "one", "register kind as take kind\nregister all as flag when kind exists or $1 exists\ningest json json\n")
    write(room, "two", "ingest csv csv\nderegister kind\ningest json json\n")
    told = [run(room, ["run", "store", script, *SHAPE])[0] for script in ("one", "two")]
    store = (room / "store").read_bytes()
    status, told_look, _ = run(room, ["run", "store", "look"])
    if told != [0, 0] or status:
        raise SystemExit("hostile: the small store isn't made")
    ends = [LINES]
    while ends[-1] < len(store):
        ends.append(ends[-1] + 32 * int.from_bytes(store[ends[-1] : ends[-1] + 2], "little"))
    return store, told_look, ends[1:]


def looked(store):
    """What a run tells of a store, and whether it left the file as it was."""
    room = new_room()
    write(room, "store", store)
    write(room, "look", LOOK)
    found = run(room, ["run", "store", "look"])
    same = (room / "store").read_bytes() == store
    shutil.rmtree(room)
    return found, same


def whole_entries(length, ends):
    """How many entries end within so many bytes."""
    return sum(end <= length for end in ends)


def damaged(number):
    return 4, "", f"fault store damaged {number}\n"


def flip(store, told, ends, place, mask):
    """A run on the store with one byte changed, and whether its answer is right. Of a record's lines the version alone is as good with
    another byte, and of a body some numbers are."""
    changed = bytearray(store)
    changed[place] ^= mask
    found, same = looked(bytes(changed))
    if place in GATES:
        right = found == ((4, "", NOT_A_STORE) if store[place] == 1 else (0, told, ""))
    elif place < BODIES[0]:
        right = found == (0, told, "")
    elif place >= LINES:
        right = found == ((0, told, "") if place - VERSION in [LINES, *ends] else damaged(whole_entries(place, ends)))
    else:
        right = found == (0, told, "") or found[0] == 4 and found[2].startswith("fault store ")
    return f"byte {place} by {mask}", found, right and (same or found[0] == 0)


def flips(each, store, told, ends):
    rows = [place for body in BODIES for place in range(body, body + USED)]
    places = [*range(0, GATES[1] + 1), *rows, *range(LINES, len(store))]
    masks = [(place, 0xFF) for place in places[::each]] + [(gate, mask) for gate in GATES for mask in (0x01, 0xFF)]
    return in_parallel(lambda one: flip(store, told, ends, *one), masks)


def cut(store, told, ends, length):
    """A run on the store's first bytes, and whether its answer is right."""
    found, same = looked(store[:length])
    if length == 0:
        return "length 0", found, found[0] == 3 and found[1].startswith("created\n")
    gate = GATES[0] if store[GATES[0]] == 1 else GATES[1]
    wanted = (4, "", NOT_A_STORE) if length <= gate else damaged(whole_entries(length, ends))
    wanted = (0, told, "") if length == len(store) else wanted
    return f"length {length}", found, found == wanted and (same or found[0] == 0)


def cuts(each, store, told, ends):
    edges = [at + by for at in (*GATES, *BODIES, LINES) for by in (-1, 0, 1, 2) if at + by >= 0]
    lengths = [*edges, len(store), *range(0, LINES, 397 * each), *range(LINES, len(store), each)]
    return in_parallel(lambda length: cut(store, told, ends, length), lengths)
