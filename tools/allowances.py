"""What may be over a budget, and by how much: the lines of .ci/allowances.txt, each `MEASURE PLACE FIGURE`."""
import pathlib

TOP = pathlib.Path(__file__).resolve().parent.parent
FILE = TOP / ".ci" / "allowances.txt"


def held(measures, found, lower):
    """Holds what was found of these measures to the lines: {(measure, place): figure}, of what is over its budget alone. A fault is what
    has no line or is over it, and a line that nothing needs; a figure that fell is only said. With `lower` such lines are rewritten.
    Answers how many faults there are."""
    faults, kept, lines = 0, [], set()
    for line in FILE.read_text(encoding="utf-8").splitlines():
        words = line.split()
        if line.startswith("#") or not words or words[0] not in measures:
            kept.append(line)
            continue
        measure, place, allowed = words[0], words[1], int(words[2])
        figure = found.get((measure, place), 0)
        lines.add((measure, place))
        if figure > allowed:
            print(f"{measure} {place}: {figure}, over the {allowed} of .ci/allowances.txt")
        elif figure < allowed and not lower:
            said = f"{figure}, so its line can be lowered from {allowed}" if figure else "within its budget, so its line has to go"
            print(f"{measure} {place}: {said} (--lower)")
        faults += figure > allowed or not figure and not lower
        if figure:
            kept.append(f"{measure} {place} {min(figure, allowed)}")
    for measure, place in sorted(set(found) - lines):
        print(f"{measure} {place}: {found[measure, place]}, over its budget")
        faults += 1
    if lower:
        FILE.write_text("\n".join(kept) + "\n", encoding="utf-8")
    return faults
