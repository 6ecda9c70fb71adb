#!/usr/bin/env python3
"""moves.py COMMAND..: what the program's words `catalogue` and `sheet` make of page files, beside document 02, R-5: for the samples, for
sheets that fill memory, and for pages of dice.

A page that is moved has to be the same bytes as here, and what is said the same words. A sheet that was moved has to come back but for screen
start 2 and the table's cells."""
import pathlib
import random
import subprocess
import sys
import tempfile

import pages
import rows

MET = {("catalogue", 0), ("catalogue", 16), ("catalogue", 17), ("sheet", 0), ("sheet", 16), ("sheet", 18), ("sheet", 19)}


def there(page):
    """A sheet with a row table: the refusal or 0, the last words of what is said, and the file."""
    found = [cells for _, _, cells in pages.walk(page)]
    fetched, size = {at for cells in found for at in cells}, 2 * len(found)
    if page[7] & 128:
        return 16, ": this page has a row table", None
    for place in range(pages.MEMORY - size + 1):
        if fetched.isdisjoint(range(place, place + size)):
            moved = bytearray(page)
            moved[7] |= 128
            moved[24:26] = place.to_bytes(2, "big")
            moved[pages.chars_of(page) + place:pages.chars_of(page) + place + size] = b"".join(cells[0].to_bytes(2, "little") for cells in found)
            return 0, f": a page of the catalogue, its row table in cells {place} to {place + size - 1}", bytes(moved)
    return 17, f": {len(found)} rows need {size} cells", None


def back(page):
    """A page with a row table as a sheet, likewise."""
    found = [cells for _, _, cells in pages.walk(page)]
    if not page[7] & 128:
        return 16, ": this page has no row table", None
    if page[5] & 128:
        return 19, ", rows have codes (IR0[7]), and the rows of a sheet have none", None
    for row in range(1, len(found)):
        begins, ended = found[row][0], pages.after(page, found[row - 1][-1])
        if begins != ended:
            return 18, f": row {row} begins at cell {begins}, not at cell {ended}, where row {row - 1} ended", None
    moved = bytearray(page)
    moved[7] &= 127
    moved[20:22] = found[0][0].to_bytes(2, "big")
    return 0, f": a typed sheet, which begins at cell {found[0][0]}", bytes(moved)


def full_sheet(count, columns, start):
    """A sheet whose buffer is all of memory, with so many rows."""
    irs = bytes([0, 127, 1, 0, count - 1, columns - 1, 0, 0, 0, 240]).ljust(15, b"\0")
    head = pages.head(1) + irs + start.to_bytes(2, "big") + bytes(4) + bytes([1, 8, 5])
    return head + bytes(2 * pages.MEMORY)


# 113 rows of 143 leave 225 cells, one too few for their table. 112 of 144 leave 256, and 224 are enough: at the end of memory, at its
# beginning, or neither where its end cuts them into two stretches that are too short.
FULL = [full_sheet(*case) for case in [(113, 143, 0), (113, 143, 8000), (112, 144, 0), (112, 144, 32), (112, 144, 33), (112, 144, 223),
                                       (112, 144, 224), (112, 144, 256)]]


def following_page(dice):
    """A page with a row table whose rows follow one another, but for one entry in two pages of three. The table stands anywhere, over
    the end of memory too and in cells that rows show; the two upper bits of its high bytes are by chance."""
    page = bytearray(rows.dice_page(dice))
    page[5] &= 127
    page[7] &= 127
    entries = [cells[0] for _, _, cells in pages.walk(page)]
    if dice.randrange(3):
        entries[dice.choice((0, -1, dice.randrange(len(entries))))] ^= 1 << dice.randrange(14)
    place = dice.choice((0, 16383, 16384 - len(entries), dice.randrange(pages.MEMORY)))
    for i, byte in enumerate(b"".join((entry | dice.randrange(4) << 14).to_bytes(2, "little") for entry in entries)):
        page[pages.chars_of(page) + (place + i) % pages.MEMORY] = byte
    page[7] |= 128
    page[20:22] = dice.randrange(pages.MEMORY).to_bytes(2, "big")
    page[24:26] = place.to_bytes(2, "big")
    return bytes(page)


def as_said(done, source, out, number, said):
    """Whether a run ended as it should: one line on one of its outputs, which ends with these words."""
    if number:
        lines, other, begin = done.stderr, done.stdout, f"feldrime: {source}: refused {number}, "
    else:
        lines, other, begin = done.stdout, done.stderr, f"{out}: "
    return (done.returncode == (1 if number else 0) and not other and lines.startswith(begin) and lines.endswith(said + "\n")
            and lines.count("\n") == 1)


def move(command, word, page, wanted, folder):
    """What is wrong with a move, or None."""
    source, out = pathlib.Path(folder, "from.page"), pathlib.Path(folder, "to.page")
    number, said, moved = wanted
    out.unlink(missing_ok=True)
    source.write_bytes(page)
    done = subprocess.run([*command, word, source, out], capture_output=True, encoding="ascii")
    if not as_said(done, source, out, number, said):
        return f"ends with {done.returncode} and says {done.stdout}{done.stderr}, not {number}{said}"
    if source.read_bytes() != page:
        return "changes the page itself"
    if (out.read_bytes() if out.exists() else None) != moved:
        return "makes another page"
    return None


def differing(page, moved):
    return {i for i, byte in enumerate(page) if byte != moved[i]}


def wrong_moves(command, name, page, folder, met):
    """How many moves of a page go wrong, of all that there are; and of a sheet there and back again."""
    wrong, todo = 0, [("catalogue", page, there(page)), ("sheet", page, back(page))]
    moved = todo[0][2][2]
    if moved:
        again = back(moved)
        todo.append(("sheet", moved, again))
        table = int.from_bytes(moved[24:26], "big") + pages.chars_of(page)
        if again[0] or not differing(page, again[2]) <= {24, 25, *range(table, table + 2 * (page[9] & 127) + 2)}:
            print(f"moves: {name} does not come back")
            wrong += 1
    for word, what, wanted in todo:
        met.add((word, wanted[0]))
        if fault := move(command, word, what, wanted, folder):
            print(f"moves: {word} of {name} {fault}")
            wrong += 1
    return wrong


def main(command):
    dice = random.Random(5)
    todo = [(path.name, path.read_bytes()) for path in sorted(pages.SAMPLES.glob("*.page"))]
    todo += [(f"full sheet {number}", page) for number, page in enumerate(FULL)]
    todo += [(f"page {number} of dice", rows.dice_page(dice)) for number in range(40)]
    todo += [(f"following page {number}", following_page(dice)) for number in range(40)]
    met = set()
    with tempfile.TemporaryDirectory() as folder:
        wrong = sum(wrong_moves(command, name, page, folder, met) for name, page in todo)
    if met != MET:
        print(f"moves: met {sorted(met)}, which is not all that there is")
        wrong += 1
    return 1 if wrong else 0


if __name__ == "__main__":
    sys.exit(main(sys.argv[1:]))
