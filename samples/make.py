#!/usr/bin/env python3
"""Makes the sample fonts, the pages and the list of phrases from the texts beside it.

With --check it writes nothing, names each file that is not what it would make, and ends with 1 if there is one."""
import configparser
import pathlib
import sys

HERE = pathlib.Path(__file__).resolve().parent
MEMORY = 16384
LANGUAGES = "en", "de", "fr", "it", "sl"
LOOKS = {"r": 1, "x": 2, "b": 4, "u": 8, "h": 16, "s": 32, "g": 32, "n": 0}  # s is for chip A, g for chip B
AFLG = 128
CHIPS = {"A": 0, "B": 1}
CODES = {"|": [0], "=": [1], "^": [2, 3]}  # by the first letter of a typed line: the codes of the rows that show its cells
SWITCHES = {"display": 1, "cursor": 2, "bkgnd": 4, "rblank": 8, "field": 16, "acd": 32}
VSYNCS = [3, 1, 5, 7]


def text(name):
    """A source. A letter that the board does not have ends the run."""
    return (HERE / name).read_text(encoding="ascii")


def ini(name):
    parser = configparser.ConfigParser(delimiters="=", interpolation=None)
    parser.read_string(text(name), name)
    return parser


def look(letters):
    """An attribute byte, without AFLG where there is no letter."""
    return AFLG | sum(LOOKS[letter] for letter in letters) if letters else 0


def padded(row, columns):
    if len(row) > columns:
        sys.exit(f"make: no room for: {row}")
    return row.ljust(columns)


def phrase(words, columns):
    """A phrase's cells: a margin of one cell, then the words."""
    return padded(f" {words}", columns)


class Memory:
    """Both memories, written in the order in which the board fetches cells."""

    def __init__(self, page):
        self.chars, self.attrs = bytearray(MEMORY), bytearray(MEMORY)
        self.first, self.last = page.getint("first"), page.getint("last")

    def is_stretch(self, at, count):
        """Whether so many cells from an address on follow one another in memory."""
        return at + count - 1 <= (self.last if at <= self.last else MEMORY - 1)

    def take(self, at, byte):
        if self.chars[at]:
            sys.exit(f"make: cell {at} is taken twice")
        self.chars[at] = byte

    def put_byte(self, at, byte, attributes):
        """Writes a cell. Gives the address after it."""
        self.take(at, byte)
        self.attrs[at] = attributes
        return self.first if at == self.last else (at + 1) % MEMORY

    def put(self, at, letters, attributes):
        """The same of cells from an address on."""
        for letter in letters:
            at = self.put_byte(at, 0x80 | ord(letter), attributes)
        return at

    def table(self, at, entries):
        for i, byte in enumerate(b"".join(entry.to_bytes(2, "little") for entry in entries)):
            self.take((at + i) % MEMORY, byte)


def numbers(page, rows, cursor):
    """What a page file holds between its length and character memory, by document 01's register table and R-4's IR0[7]."""
    n = {key: int(page[key]) for key in page if page[key].isdigit()}
    cursor_first, cursor_last = map(int, page["cursor lines"].split())
    irs = [
        ("row codes" in page) << 7 | n["lines"] - 1 << 3,
        n["ec"] - 1,
        ("sheet" not in page or "row codes" in page) << 7 | (n["hsync"] - 2) // 2 << 3 | (n["hbp"] + 1) // 4,
        (n["vfp"] - 4) // 4 << 5 | (n["vbp"] - 4) // 2,
        rows - 1,
        n["columns"] - 1,
        cursor_first << 4 | cursor_last,
        VSYNCS.index(n["vsync"]) << 6 | 1 << 5 | n["underline"],
        n["first"] & 255,
        n["last"] // 1024 << 4 | n["first"] >> 8,
    ]
    addresses = b"".join(at.to_bytes(2, "big") for at in (n["start 1"], cursor, n["start 2"]))
    switches = sum(SWITCHES[name] for name in page["switches"].split())
    chip = [CHIPS[page["chip"]]] if n["version"] == 3 else []
    return bytes(irs).ljust(15, b"\0") + addresses + bytes([switches, n["dots"], n["strike"], *chip])


def sheet_lines(page):
    """A sheet's lines: for each the codes of its rows, its letters, the lines that mark its cells, and those that draw them."""
    lines = []
    for line in text(page["sheet"]).splitlines():
        if line[0] == ":":
            lines[-1][2].append(padded(line[1:], len(lines[-1][1])))
        elif line[0] == "%":
            lines[-1][3].append(padded(line[1:], 2 * len(lines[-1][1])))
        else:
            codes, columns = CODES[line[0]], page.getint("columns")
            lines.append((codes, padded(line[1:], columns if codes == [0] else (columns + 1) // 2), [], []))
    return lines


def drawn(drawing, cell):
    """A cell's code of graphics, from lines with two letters a cell: # is a bit that is set, CA0 and CA1 in the first line."""
    bits = [line[2 * cell + i] == "#" for line in drawing for i in (0, 1)]
    return sum(bit << i for i, bit in enumerate(bits))


def typed(page, memory):
    """Types a sheet: a line with | is a row, and lines with : below it give its cells attributes, by letter (n is AFLG
    alone), or the cursor, by c. Four lines with % below it draw the cells that g marks. With row codes a line with = is a row
    of double width, which has half the cells, and one with ^ two rows, the top and the bottom half of a headline; a row table
    then names where each row begins. Gives the number of rows and the cursor's address."""
    at = page.getint("start 1")
    cursor = 0
    entries = []
    for codes, row, marks, drawing in sheet_lines(page):
        entries += [code << 14 | at for code in codes]
        for cell, (letter, *letters) in enumerate(zip(row, *marks)):
            if "c" in letters:
                cursor = at
            byte, code = 0x80 | ord(letter), drawn(drawing, cell)
            if code and "g" not in letters:
                sys.exit(f"make: {page['sheet']} draws a cell that is not marked g")
            at = memory.put_byte(at, code if "g" in letters else byte, look(set(letters) - {" ", "c"}))
    if "row codes" in page:
        memory.table(page.getint("start 2"), entries)
    elif any(codes != [0] for codes, *_ in sheet_lines(page)):
        sys.exit(f"make: {page['sheet']} needs row codes")
    return len(entries), cursor


def phrases(page, memory, catalogue):
    """Writes the catalogue. Gives the first cell of each phrase of each language."""
    columns = page.getint("columns")
    at = page.getint("catalogue")
    places = {}
    for name in catalogue.sections():
        for language in LANGUAGES:
            places[language, name] = at
            at = memory.put(at, phrase(catalogue[name][language], columns), look(catalogue[name]["look"]))
    return places


def composed(page, memory, catalogue):
    """Composes a page from the catalogue. Gives the number of rows and the cursor's address."""
    places, language = phrases(page, memory, catalogue), page.get("language", page.name)
    if "remark" in page:
        name, at = page["remark for"], page.getint("remark at")
        memory.put(at, phrase(page["remark"], page.getint("columns")), look(catalogue[name]["look"]))
        places[language, name] = at
    starts = [places[language, name] for name in page["rows"].split()]
    if "late row" in page:
        starts[page.getint("late row")] += page.getint("late by")
    memory.table(page.getint("start 2"), starts)
    return len(starts), places.get((language, page.get("cursor")), 0)


def page_file(page, catalogue):
    memory = Memory(page)
    if "sheet" in page:
        rows, cursor = typed(page, memory)
    else:
        rows, cursor = composed(page, memory, catalogue)
    body = numbers(page, rows, cursor) + memory.chars + memory.attrs
    return bytes([page.getint("version")]) + len(body).to_bytes(4, "big") + body


def phrase_list(page, catalogue):
    """The phrases of a page that holds the catalogue, as a text: a record for each but for those whose cells do not follow one
    another, which no record can hold."""
    memory, columns = Memory(page), page.getint("columns")
    places = phrases(page, memory, catalogue)
    lines = ["# The phrases of catalogue.ini where the catalogue's pages hold them: language, number, first cell, length in cells."]
    for number, name in enumerate(catalogue.sections(), 1):
        lines.append(f"\n# {number}: {name}")
        for language in LANGUAGES:
            at = places[language, name]
            record = f"{language} {number} {at} {columns}"
            lines.append(record if memory.is_stretch(at, columns) else f"# left out, its cells do not follow one another: {record}")
    return "\n".join(lines).encode("ascii") + b"\n"


def catalogue_list(pages, catalogue):
    """One list for all pages of the catalogue, which hold it in the same cells."""
    lists = {phrase_list(pages[name], catalogue) for name in pages.sections() if "sheet" not in pages[name]}
    if len(lists) != 1:
        sys.exit("make: the pages do not hold the catalogue in the same cells")
    return lists.pop()


def groups(card):
    """The groups of a graphics card, which is by paper 002: its columns 30 to 45 are scan lines 0 to 15, and a blank is none."""
    return bytes(int(column) if column.strip() else 0 for column in card[29:45].ljust(16))


def font_file(deck, card=None):
    """The cards are by paper 002: the line numbers of both lists, then a character, N or S, and nine words. With a graphics card it is
    a font of version 2."""
    lists, *cards = [line.split() for line in deck.splitlines()]
    if [int(card[0], 16) for card in cards] != list(range(128)) or {len(card) for card in cards} != {11}:
        sys.exit("make: the deck is not 128 cards of nine words, in order")
    words = b"".join(int(word, 16).to_bytes(2, "big") for card in cards for word in card[2:])
    flags = bytes(card[1] == "S" for card in cards)
    numbered = bytes(int(number, 16) for part in lists for number in part.split("=")[1].split(","))
    body = words + flags + numbered + (groups(card) if card else b"")
    return bytes([2 if card else 1]) + len(body).to_bytes(4, "big") + body


def main(arguments):
    if arguments not in ([], ["--check"]):
        sys.exit("usage: make.py [--check]")
    catalogue, pages = ini("catalogue.ini"), ini("pages.ini")
    made = {f"{name}.page": page_file(pages[name], catalogue) for name in pages.sections()}
    made["deck.font"] = font_file(text("deck.txt"))
    made["graphics.font"] = font_file(text("deck.txt"), text("graphics.txt").rstrip("\n"))
    made["catalogue.phrases"] = catalogue_list(pages, catalogue)
    if not arguments:
        for name, content in made.items():
            (HERE / name).write_bytes(content)
        return 0
    found = {path.name: path.read_bytes() for ending in ("page", "font", "phrases") for path in HERE.glob(f"*.{ending}")}
    wrong = sorted(name for name in made.keys() | found.keys() if made.get(name) != found.get(name))
    for name in wrong:
        print(f"make: {name} is not what make.py makes")
    return 1 if wrong else 0


if __name__ == "__main__":
    sys.exit(main(sys.argv[1:]))
