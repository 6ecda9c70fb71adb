#!/usr/bin/env python3
"""rows.py COMMAND..: what the program's word `rows` prints, beside a walk of its own, for the samples and for pages of dice; and the texts
and titles of the word `site`, beside a reading of its own, for pages of dice with row codes, by a font with groups and by one without.

The samples' text is also compared with the texts that they are made of."""
import html
import pathlib
import random
import re
import subprocess
import sys
import tempfile

import pages


def fields(output, sized, listed):
    """What `rows` prints, taken apart, and beside each row its phrase, which is told where a list is handed over."""
    head, *lines = output.splitlines()
    if head.split() != ["row", "from", *["size"] * sized, "cells", *["phrase"] * listed, "text"]:
        sys.exit(f"rows: the head is {head}")
    for line in lines:
        place, text = line.split("|", 1)
        at = head.index("cells")
        size = head.index("size") if sized else at
        cells, *phrase = place[at:].split(None, 1)
        yield (int(place[:5]), place[5:size].strip(), place[size:at].strip(), cells, text), "".join(phrase).strip()


def printed(command, name):
    done = subprocess.run([*command, "rows", name], capture_output=True, encoding="ascii", check=True)
    return [row for row, phrase in fields(done.stdout, pathlib.Path(name).read_bytes()[5] >> 7, False) if not phrase]


def numbers(dice, dots, strike, choices):
    """A version, and the bytes behind the addresses in a page file of it; version 3 has the chip."""
    version, switches, *chip = dice.choice(choices)
    return version, bytes([switches, dots, strike, *chip])


def dice_page(dice):
    """An accepted page. Half have a row table, half of these with row codes, and small buffers make rows that show cells twice."""
    irs = bytearray(dice.randbytes(15))
    irs[1] = 127
    irs[2] = dice.choice((0, 128)) | 1
    irs[0] &= 127 | irs[2]
    irs[9] = dice.choice((0, 0, 16, 240)) | irs[9] & dice.choice((0, 3, 15))
    starts = b"".join(dice.choice((0, 1000, 16380, dice.randrange(16384))).to_bytes(2, "big") for _ in range(3))
    version, rest = numbers(dice, 8, 5, ((1, 1), (2, 1), (2, 17), (2, 49), (3, 17, 0), (3, 1, 1), (3, 17, 1), (3, 49, 1)))
    return pages.head(version) + irs + starts + rest + dice.randbytes(2 * pages.MEMORY)


def headline_page(dice):
    """An accepted page with row codes, small. Its rows begin at few cells, so that some are halves of the same ones. Most cells have a
    character, and many are struck or graphics."""
    irs = bytearray(dice.randbytes(15))
    irs[0] |= dice.choice((128, 192))
    irs[1], irs[2], irs[4], irs[5], irs[9] = 127, 129, irs[4] & 128 | 11, dice.randrange(12), 0
    starts = b"".join(start.to_bytes(2, "big") for start in (0, 501, 8192))
    chars = bytearray(byte | byte << 1 & 128 for byte in dice.randbytes(pages.MEMORY))
    for row in range(12):
        entry = dice.choice((500, 500, 1020)) | dice.choice((0, 1, 2, 2, 3, 3)) << 14
        chars[8192 + 2 * row:8194 + 2 * row] = entry.to_bytes(2, "little")
    attrs = bytes(dice.choice((0, 0, 160, 128 | dice.randrange(64) & dice.randrange(64))) for _ in range(1024))
    version, rest = numbers(dice, dice.randrange(6, 13), dice.randrange(16),
                            ((1, 1), (1, 7), (2, 3), (2, 17), (2, 49), (3, 49, 0), (3, 3, 1), (3, 17, 1), (3, 21, 1), (3, 49, 1)))
    return pages.head(version) + irs + starts + rest + chars + attrs.ljust(pages.MEMORY, b"\0")


def headlines(page):
    """For each row that is a top half whether the next one is its bottom half."""
    rows = [(code, cells) for _, code, cells in pages.walk(page)]
    return {rows[i + 1:i + 2] == [(3, cells)] for i, (code, cells) in enumerate(rows) if code == 2}


def wrong_readings(command, font, count):
    """How many texts of a site are not what is read in its pages. Both headlines and halves alone have to be met, and graphics exactly
    if the font has groups."""
    dice, wrong, met, drawn = random.Random(2), 0, set(), False
    with tempfile.TemporaryDirectory() as folder:
        files = [pathlib.Path(folder, f"dice{number}.page") for number in range(count)]
        for file in files:
            file.write_bytes(headline_page(dice))
        subprocess.run([*command, "site", font, folder, *files], stdout=subprocess.DEVNULL, check=True)
        for file in files:
            page, web_page = file.read_bytes(), file.with_suffix(".html").read_text("utf-8")
            lines = pages.picture_lines(page, font.read_bytes())
            wanted = pages.text_of(lines, "[struck out: ", "]", "graphics")
            drawn = drawn or any(graphics for _, _, _, graphics in lines)
            got = html.unescape(re.search(r'<img [^>]*alt="([^"]*)"', web_page)[1])
            if got != (wanted if wanted.strip() else "The picture shows no text."):
                print(f"rows: the text of {file.name} is {got!r}, not {wanted!r}")
                wrong += 1
            wanted, got = pages.title_of(lines) or file.stem, html.unescape(re.search("<title>(.*)</title>", web_page)[1])
            if got != wanted:
                print(f"rows: the title of {file.name} is {got!r}, not {wanted!r}")
                wrong += 1
            met |= headlines(page)
    if met != {False, True}:
        print("rows: the pages of dice have only headlines or only halves alone")
        wrong += 1
    if drawn != (font.read_bytes()[0] == 2):
        print(f"rows: by {font.name} the pages of dice have graphics: {drawn}")
        wrong += 1
    return wrong


def main(command):
    wrong = wrong_readings(command, pages.SAMPLES / "graphics.font", 60) + wrong_readings(command, pages.SAMPLES / "deck.font", 20)
    for path in sorted(pages.SAMPLES.glob("*.page")):
        got, wanted = printed(command, path), pages.rows_listing(path.read_bytes())
        if got != wanted or [row[4] for row in got] != pages.typed_rows(path.stem):
            print(f"rows: {path.name} differs")
            wrong += 1
    dice = random.Random(1)
    marked = coded = drawn = 0
    with tempfile.NamedTemporaryFile() as file:
        for number in range(60):
            page = dice_page(dice)
            file.seek(0)
            file.truncate()
            file.write(page)
            file.flush()
            got = printed(command, file.name)
            marked += any("*" in row[3] for row in got)
            coded += page[5] >> 7
            drawn += any("[graphics]" in row[4] for row in got)
            if got != pages.rows_listing(page):
                print(f"rows: page {number} of dice differs")
                wrong += 1
    if not 0 < marked < 60:
        print(f"rows: {marked} of 60 pages have marked cells, which tries only one of the two")
        wrong += 1
    if not 0 < drawn < 60:
        print(f"rows: {drawn} of 60 pages have graphics, which tries only one of the two")
        wrong += 1
    if not 0 < coded < 60:
        print(f"rows: {coded} of 60 pages have rows with codes, which tries only one of the two")
        wrong += 1
    return 1 if wrong else 0


if __name__ == "__main__":
    sys.exit(main(sys.argv[1:]))
