"""Writes files of a full hall for the examples in C, and what they must print.

    hall_files.py FOLDER
"""
import pathlib
import sys

SIDE = 1024
LAST = SIDE * SIDE - 1
STRAIGHT, DIAGONAL = 70 * 2, 99 * 2


def main(folder):
    folder = pathlib.Path(folder)
    text = f"type octile\nheight {SIDE}\nwidth {SIDE}\nmap\n" + (SIDE * "." + "\n") * SIDE
    (folder / "hall.map").write_text(text)
    (folder / "longer.map").write_text(text + "\n")
    # row by row and back through every cell; the last step of all would lead off the map
    rows = "4".join((SIDE - 1) * ("2" if row % 2 == 0 else "6") for row in range(SIDE)) + "4"
    south_west = LAST + 1 - SIDE
    claims = [f"map {folder}/hall.map 8"] + [f"claim 0 {south_west} {STRAIGHT * LAST} {route}" for route in (rows[:-1], rows)]
    (folder / "hall.claims").write_text("\n".join([*claims, f"map {folder}/longer.map 8", ""]))
    (folder / "hall_claims.expected").write_text(
        f"holds, cost {STRAIGHT * LAST}\n"
        "refused 12: the route has as many steps as there are cells, or more\n"
        f"{folder}/longer.map: refused 28 at {len(text)}: a further byte after the last row\n"
    )
    (folder / "hall_search.expected").write_text(
        f"found at cost {DIAGONAL * (SIDE - 1)}, P 0, Q {2 * (SIDE - 1)}, {LAST + 1} settled, route {'3' * (SIDE - 1)}\n"
    )


main(*sys.argv[1:])
