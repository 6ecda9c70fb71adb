#!/usr/bin/env python3
"""phrases.py COMMAND..: what the program's word `rows` says of a list of phrases, and which pages its word `site` shows by one, beside
document 02, R-6: for the samples, and for pages and lists of dice.

A record is a tuple of language, number, first cell and length. Lists are written with comments, empty lines and blanks here and there."""
import pathlib
import random
import subprocess
import sys
import tempfile

import pages
import rows

FONT = pages.SAMPLES / "deck.font"
LIST = pages.SAMPLES / "catalogue.phrases"
HIGHEST = 2 ** 32 - 1
BAD = [(0, 0), (300, 0), (16383, 2), (16384, 1), (0, 16385), (HIGHEST, 1), (1, HIGHEST), (HIGHEST, HIGHEST)]
REFUSED = "refused 20, a phrase record has length 0 or passes cell 16383"
MET = {"an empty list", "refused 20", "refused 20 later", "another first cell", "another length", "none differ", "no phrase", "the first phrase",
       "a later phrase", "one of several", "a row around the buffer", "a row of double width", "only a row's ends", "shown", "not shown",
       "only in another language"}
met = set()


def is_bad(record):
    return record[3] == 0 or record[2] + record[3] - 1 > 16383


def holding(records, cells):
    """The places of all records that hold all these cells."""
    return [i for i, record in enumerate(records) if all(record[2] <= cell < record[2] + record[3] for cell in cells)]


def first_two(records):
    """The first pair that disagrees, by the earlier one and then by the later; None where there is none."""
    for i, one in enumerate(records):
        for j, other in enumerate(records[i + 1:], i + 1):
            if one[:2] == other[:2] and one[2:] != other[2:]:
                return i, j
    return None


def phrase_of(records, cells, code=0):
    """What is said of a row's phrase."""
    places = holding(records, cells)
    before = records[:places[0]] if places else records
    met.update(["only a row's ends"] * bool(holding(before, [cells[0], cells[-1]])))
    if not places:
        met.add("no phrase")
        return "no phrase"
    met.add("a later phrase" if places[0] else "the first phrase")
    met.update(["one of several"] * (len(places) > 1) + ["a row of double width"] * (code > 0))
    met.update(["a row around the buffer"] * (cells != list(range(cells[0], cells[0] + len(cells)))))
    return f"{records[places[0]][0]} {records[places[0]][1]}"


def disagreement(records, lines):
    """What is said of two records that disagree, by their lines; "" where none do."""
    pair = first_two(records)
    if not pair:
        met.add("none differ")
        return ""
    one, other = records[pair[0]], records[pair[1]]
    if (one[2] == other[2]) != (one[3] == other[3]):
        met.add("another length" if one[2] == other[2] else "another first cell")
    return (f"lines {lines[pair[0]]} and {lines[pair[1]]} disagree: {one[0]} {one[1]} has {one[3]} cells from cell {one[2]} on, "
            f"and {other[3]} from cell {other[2]} on")


def run(command, *arguments):
    done = subprocess.run([*command, *arguments], capture_output=True, encoding="ascii")
    return done.returncode, done.stdout, done.stderr


def wrong_rows(command, page_name, list_name, records, lines):
    """What is wrong with what `rows` says of a page and a list; None where nothing is."""
    page = pathlib.Path(page_name).read_bytes()
    status, out, said = run(command, "rows", page_name, list_name)
    bad = [line for record, line in zip(records, lines) if is_bad(record)]
    if bad:
        met.add("refused 20" if is_bad(records[0]) else "refused 20 later")
        wanted = 1, "", f"feldrime: {list_name}: {REFUSED}: line {bad[0]}\n"
        return None if (status, out, said) == wanted else f"says {said!r}, not {wanted[2]!r}"
    got = list(rows.fields(out, page[5] >> 7, True))
    phrases = [phrase_of(records, cells, code) for _, code, cells in pages.walk(page)]
    if got != list(zip(pages.rows_listing(page), phrases)):
        return "has other rows"
    wanted = disagreement(records, lines)
    met.update(["an empty list"] * (not records))
    if (status, said) != ((1, f"feldrime: {list_name}: {wanted}\n") if wanted else (0, "")):
        return f"ends with {status} and says {said!r}, not {wanted!r}"
    return None


def untold(records, language, page):
    """What is to be told of the rows that no phrase of a language holds."""
    own = [record for record in records if record[0] == language]
    for row, ((_, _, cells), text) in enumerate(zip(pages.walk(page), pages.row_texts(page))):
        if not holding(own, cells):
            met.update(["only in another language"] * bool(holding(records, cells)))
            yield f"row {row}, cells {cells[0]} to {cells[-1]}, is in no phrase of {language}: |{text}"


def wrong_site(command, folder, list_name, records, files):
    """What is wrong with a site of pages, each with its language; None where nothing is."""
    status, out, said = run(command, "site", FONT, folder, "--phrases", list_name, *files)
    shown, told = [], ""
    for file, language in files.items():
        page = file.read_bytes()
        lines = list(untold(records, language, page)) if language else []
        if language and lines:
            lines.append(f"{len(lines)} of its {(page[9] & 127) + 1} rows {'is' if len(lines) == 1 else 'are'} in no phrase of its language")
        elif not language:
            lines.append("its name gives no language, so none of the phrases is its own")
        shown += [file.stem] * (not lines)
        met.add("not shown" if lines else "shown")
        told += "".join(f"feldrime: {file}: {line}\n" for line in lines)
        web_page = pathlib.Path(folder, f"{file.stem}.html").read_text("utf-8")
        if ("This page is not shown: " in web_page) != bool(lines) or ("<img " in web_page) == bool(lines) or (lines and lines[-1] not in web_page):
            return f"has a wrong page {file.stem}"
    made = "".join(f"{folder}/{name}.html\n" for name in [*shown, "index"])
    if (status, out, said) != (1 if told else 0, made, told):
        return f"ends with {status} and says {out}{said}, not {made}{told}"
    return None


def dice_records(dice, page):
    """A list for a page: its rows' cells, a cell more or less at either end, from a row's first cell to its last, between which it may run
    around the buffer, all of memory, any cells, what touches the record before it, and records again."""
    found = [cells for _, _, cells in pages.walk(page)]
    records = []
    for _ in range(dice.choice((0, 1, 2, 5, 40))):
        cells = dice.choice(found)
        first, last = min(cells), max(cells)
        touching = records[-1][2] + records[-1][3] if records else 0
        first, last = dice.choice([(first, last), (first, last), (first + 1, last), (first, last - 1), (first - 1, last + 1),
                                   (cells[0], cells[-1]), (0, 16383), (dice.randrange(16384), 16383), (touching, touching + dice.randrange(500))])
        record = [dice.choice(pages.LANGUAGES), len(records), min(max(first, 0), 16383), 0]
        record[3] = min(max(last, record[2]), 16383) - record[2] + 1
        records.append(tuple(record))
        if dice.randrange(6) == 0:
            records.append(dice.choice(records))
    return records


def spoiled(dice, records):
    """The same records, of which some disagree or are refused."""
    records = [(record[0], record[1] % 8 if dice.randrange(4) == 0 else record[1], *record[2:]) for record in records]
    if records and dice.randrange(3) == 0:
        language, number, first, length = dice.choice(records)
        records.append((language, number, *dice.choice(((first, length % 500 + 1), (first // 2, length)))))
    for _ in range(dice.choice((0, 0, 0, 1, 2))):
        record = dice.choice(pages.LANGUAGES), dice.choice((0, HIGHEST)), *dice.choice(BAD)
        records.insert(dice.choice((0, len(records), dice.randrange(len(records) + 1))), record)
    return records


def written(dice, records):
    """A list as a text, and the line of each record in it."""
    text, lines = "", []
    for record in records:
        text += dice.choice(("", "", "\n", "# a comment\n", " \t# en 1 2 3\r\n"))
        lines.append(text.count("\n") + 1)
        words = [dice.choice((record[0], record[0].upper())), *map(str, record[1:])]
        text += dice.choice((" ", "  ", "\t")).join(words) + dice.choice(("\n", " \n", "\r\n", " # 12\n", "# de\n"))
    return dice.choice((text, text.removesuffix("\n"), text + "#")), lines


def list_of(name):
    """A list's records and their lines."""
    parted = [(number, line.split("#")[0].split()) for number, line in enumerate(pathlib.Path(name).read_text("ascii").splitlines(), 1)]
    return ([(words[0], *map(int, words[1:])) for _, words in parted if words], [number for number, words in parted if words])


def wrong_list(records):
    """What is wrong with the samples' own list: each phrase has to stand where it says, and only one is left out."""
    catalogue, page = pages.ini("catalogue.ini"), (pages.SAMPLES / "en.page").read_bytes()
    names = dict(enumerate(catalogue.sections(), 1))
    wanted = {(language, number): f" {catalogue[names[number]][language]}".rstrip() for number in names for language in pages.LANGUAGES}
    del wanted["fr", list(names.values()).index("unstable") + 1]
    got = {(language, number): pages.letters(page, range(first, first + length)).rstrip() for language, number, first, length in records}
    return None if got == wanted and len(records) == len(wanted) else "is not where the phrases stand"


def try_samples(command, folder):
    """The faults of the samples: their own list, their rows and their site."""
    records, lines = list_of(LIST)
    yield "catalogue.phrases", wrong_list(records)
    files = {path: pages.language(path.stem) for path in sorted(pages.SAMPLES.glob("*.page"))}
    for file in files:
        yield file.name, wrong_rows(command, file, LIST, records, lines)
    yield "the samples", wrong_site(command, folder, LIST, records, files)
    shown = {file.stem for file in files if "<img " in pathlib.Path(folder, f"{file.stem}.html").read_text("utf-8")}
    yield "the samples", None if shown == {"en", "de", "sl"} else f"shows {sorted(shown)}"


def try_dice(command, folder, count=60):
    """The faults of lists of dice, on a page of dice and on a site of small ones."""
    dice, list_name = random.Random(6), pathlib.Path(folder, "dice.phrases")
    for number in range(count):
        page = pathlib.Path(folder, "any.page")
        page.write_bytes(rows.dice_page(dice))
        records = spoiled(dice, dice_records(dice, page.read_bytes()))
        text, lines = written(dice, records)
        list_name.write_text(text, newline="")
        yield f"list {number}", wrong_rows(command, page, list_name, records, lines)
    for number in range(count // 4):
        files = {pathlib.Path(folder, f"{language}-{number}.page"): language for language in pages.LANGUAGES}
        for file in files:
            file.write_bytes(rows.headline_page(dice))
        records = dice_records(dice, dice.choice(list(files)).read_bytes())
        list_name.write_text(written(dice, records)[0], newline="")
        yield f"site {number}", wrong_site(command, folder, list_name, records, files)


def main(command):
    wrong = 0
    with tempfile.TemporaryDirectory() as folder:
        for part in (try_samples, try_dice):
            for name, fault in part(command, folder):
                if fault:
                    print(f"phrases: {name} {fault}")
                    wrong += 1
    if met != MET:
        print(f"phrases: not met: {sorted(MET - met)}")
        wrong += 1
    return 1 if wrong else 0


if __name__ == "__main__":
    sys.exit(main(sys.argv[1:]))
