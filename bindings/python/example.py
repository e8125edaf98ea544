"""example.py LIBCREW.so ROSTER..: what the program crew prints for each roster."""
import sys

import crew


def told(library, file):
    desk = crew.Desk(library)
    try:
        desk.load_roster(file)
    except crew.Refused as refused:
        return [f"refused {refused.number} {refused.group}"]
    found = desk.find()
    lines = [" ".join(map(str, step)) for step in found.diary]
    if found.kind == "plan":
        parts = [("plan", found.plan)]
    elif found.kind == "left":
        parts = [("none left", found.left)]
    else:
        lines.append(f"none rivalled {found.vote}")
        parts = [("candidate", found.plan), ("rival", found.rival)]
    for name, pairs in parts:
        lines.append(f"{name} {len(pairs)}")
        lines += [" ".join(map(str, pair)) for pair in pairs]
    return lines


if __name__ == "__main__":
    library = crew.Library(sys.argv[1])
    for name in sys.argv[2:]:
        with open(name, "rb") as file:
            print("\n".join(told(library, file.read())))
