"""What the samples say, from the texts that they are made of; and where the rows of a page file come from, and what a person reads in its
picture, by documents 01 and 02.

It shares nothing with programs/ or with the library."""
import configparser
import itertools
import pathlib
import re

SAMPLES = pathlib.Path(__file__).resolve().parents[2] / "samples"
MEMORY = 16384
SIZES = ["", "wide", "top", "bottom"]  # by a row's code
LANGUAGES = ["en", "de", "fr", "it", "sl"]  # in the catalogue's order
LABELS = {"en": "struck out", "de": "gestrichen", "fr": "barré", "it": "barrato", "sl": "prečrtano"}
GRAPHICS = {"en": "graphics", "de": "Grafik", "fr": "graphique", "it": "grafica", "sl": "grafika"}


def ini(name):
    parser = configparser.ConfigParser(delimiters="=", interpolation=None)
    parser.read(SAMPLES / name, encoding="ascii")
    return parser


def is_sheet(name):
    return "sheet" in ini("pages.ini")[name]


def marked(page):
    """A sheet's lines: how many rows show it, the letters, for each cell under which there are marks, these, and the cells that a # draws.
    A line with = is a row of double width, which has half the cells (02, R-4), and one with ^ is a headline, which two rows show."""
    lines = []
    for line in (SAMPLES / page["sheet"]).read_text("ascii").splitlines():
        if line[0] == "%":
            lines[-1][3].update(i // 2 for i, letter in enumerate(line[1:]) if letter == "#")
            continue
        if line[0] != ":":
            columns = page.getint("columns")
            cells = columns if line[0] == "|" else (columns + 1) // 2
            lines.append((2 if line[0] == "^" else 1, line[1:].ljust(cells), {}, set()))
            continue
        for i, mark in enumerate(line[1:]):
            if mark not in " c":
                lines[-1][2].setdefault(i, set()).add(mark)
    return lines


def sheet_lines(name):
    """A line's letters, the places of those that are hidden, of those that are struck and of graphics that show something. In field
    mode (02, R-1) marks run on up to the next cell with marks of its own, from row to row; with ACD low such a cell shows no
    letter, but its lines."""
    page = ini("pages.ini")[name]
    switches = page["switches"].split()
    lines, valid = [], set()
    for _, letters, marks, drawn in marked(page):
        hidden, struck, graphics = set(), set(), set()
        for i in range(len(letters)):
            valid = marks.get(i, valid if "field" in switches else set())
            setting = "field" in switches and "acd" not in switches and i in marks
            if "x" in valid or "g" in valid or setting:
                hidden.add(i)
            if "s" in valid and "x" not in valid:
                struck.add(i)
            if "g" in valid and "x" not in valid and i in drawn and not setting:
                graphics.add(i)
        lines.append((letters, hidden, struck, graphics))
    return lines


def text_of(lines, opening, closing, word):
    """Lines as a reader sees them: hidden letters are blanks, struck ones stand between the two, with the blanks between them. Graphics
    on end are the word in brackets, and then blanks up to the next cell if there is room for them."""
    text = ""
    for letters, hidden, struck, graphics in lines:
        line = ""
        for (is_struck, is_graphics), run in itertools.groupby(range(len(letters)), lambda i: (i in struck, i in graphics)):
            part = "".join(" " if i in hidden else letters[i] for i in run)
            if is_graphics:
                part = f"[{word}]".ljust(len(part))
            line += re.sub(r"\S(.*\S)?", lambda found: opening + found[0] + closing, part) if is_struck else part
        text += line.rstrip() + "\n"
    return text


def title_of(lines):
    """The first line that has letters, without what is struck, and with single blanks; "" if there is none."""
    for line in text_of(lines, "\1", "\2", "\3").splitlines():
        if title := " ".join(re.sub("\1.*?\2", "", line).replace("[\3]", " ").split()):
            return title
    return ""


def language(name):
    """A sample's language; None where it has none."""
    own = ini("pages.ini")[name].get("language", name)
    return own if own in LANGUAGES else None


def catalogue_text(name):
    """A row is its phrase, or, where it begins late, the rest of it and what stands behind it."""
    page, phrases = ini("pages.ini")[name], ini("catalogue.ini")
    order, columns = [(phrase, each) for phrase in phrases.sections() for each in LANGUAGES], page.getint("columns")
    cells = "".join(f" {phrases[phrase][each]}".ljust(columns) for phrase, each in order)
    lines = []
    for row, phrase in enumerate(page["rows"].split()):
        at = columns * order.index((phrase, language(name))) + (page.getint("late by") if page.get("late row") == str(row) else 0)
        own = "remark" in page and page["remark for"] == phrase
        lines.append((f" {page['remark']}" if own else cells[at:at + columns]).rstrip())
    return "\n".join(lines) + "\n"


def sample_text(name, opening, closing, word):
    return text_of(sheet_lines(name), opening, closing, word) if is_sheet(name) else catalogue_text(name)


def typed_rows(name):
    """What stands in the cells of a sample's rows, hidden or not. Both rows of a headline have its letters."""
    if not is_sheet(name):
        return catalogue_text(name).splitlines()
    texts = []
    for rows, letters, marks, _ in marked(ini("pages.ini")[name]):
        graphics = {i for i in marks if "g" in marks[i]}
        texts += rows * [text_of([(letters, set(), set(), graphics)], "", "", "graphics").rstrip()]
    return texts


def head(version):
    """How a page file begins (02, R-7: version 3 has one byte more)."""
    return bytes([version, 0, 0, 128, 25 if version == 3 else 24])


def chars_of(page):
    """Where character memory begins in a page file."""
    return 30 if page[0] == 3 else 29


def is_b(page):
    """Whether the page is of chip B, where bit 5 means graphics and there is no strike."""
    return page[0] == 3 and page[29] == 1


def after(page, at):
    """The cell that is fetched after another."""
    first, last = page[13] | (page[14] & 15) << 8, 1024 * ((page[14] >> 4) + 1) - 1
    return first if at == last else (at + 1) % MEMORY


def walk(page):
    """For each row of a page file where it is from, its code (02, R-4) and the cells that it shows, one after the other."""
    irs, chars = page[5:20], page[chars_of(page):chars_of(page) + MEMORY]
    start1, start2 = int.from_bytes(page[20:22], "big"), int.from_bytes(page[24:26], "big")
    at = start1
    for row in range((irs[4] & 127) + 1):
        origin, code = "goes on" if row else "screen start 1", 0
        if irs[2] & 128:
            low, high = (start2 + 2 * row) % MEMORY, (start2 + 2 * row + 1) % MEMORY
            at = chars[low] | (chars[high] & 63) << 8
            origin = f"entry {low},{high}"
            code = chars[high] >> 6 if irs[0] & 128 else 0
        cells = []
        for _ in range((irs[5] + 2) // 2 if code else irs[5] + 1):
            cells.append(at)
            at = after(page, at)
        yield origin, code, cells


def valid(page):
    """For each row of a page file the attribute bytes that are valid in its cells, 0 for none (02, R-1)."""
    latch = 0
    for _, _, cells in walk(page):
        row = []
        for cell in cells:
            own = page[chars_of(page) + MEMORY + cell]
            latch = own if own & 128 else latch if page[26] & 16 else 0
            row.append(latch)
        yield row


def letters(page, cells):
    chars = page[chars_of(page):chars_of(page) + MEMORY]
    text = [chr(chars[at] - 128) if chars[at] >= 128 else " " for at in cells]
    return "".join(letter if " " <= letter <= "~" else "." for letter in text)


def row_texts(page):
    """What stands in the cells of each row, shown or not: letters, or graphics."""
    for (_, _, cells), attributes in zip(walk(page), valid(page)):
        graphics = {i for i, attribute in enumerate(attributes) if is_b(page) and attribute & 32}
        yield text_of([(letters(page, cells), set(), set(), graphics)], "", "", "graphics").rstrip()


def ranges(cells, several):
    parts = []
    for at in cells:
        if parts and at == parts[-1][1] + 1 and (at in several) == parts[-1][2]:
            parts[-1][1] = at
        else:
            parts.append([at, at, at in several])
    return ",".join((f"{a}" if a == b else f"{a}-{b}") + "*" * shared for a, b, shared in parts)


def rows_listing(page):
    """What `feldrime rows` is to print, in fields."""
    rows = list(walk(page))
    showing = {}
    for row, (_, _, cells) in enumerate(rows):
        for at in cells:
            showing.setdefault(at, set()).add(row)
    several = {at for at, by in showing.items() if len(by) > 1}
    return [(row, origin, SIZES[code], ranges(cells, several), text)
            for row, ((origin, code, cells), text) in enumerate(zip(rows, row_texts(page)))]


def shapes(font):
    """For each character the dots that it has on scan lines."""
    words, flags, lists = font[5:2309], font[2309:2437], (font[2437:2446], font[2446:2455])
    for character in range(128):
        own = words[18 * character:18 * character + 18]
        named = list(zip(lists[1 if flags[character] else 0], zip(own[::2], own[1::2])))
        yield {line & 15: (high << 8 | low) & 1023 for line, (high, low) in reversed(named)}


def drawing(font, code):
    """The dots of graphics on scan lines (02, R-7): by the line's group one bit of the code five times, then its neighbour. A font of version 1
    has no groups."""
    groups = font[2455:2471] if font[0] == 2 else bytes(16)
    return {line: 31 * (code >> 2 * group - 2 & 1) + 992 * (code >> 2 * group - 1 & 1) for line, group in enumerate(groups) if group}


def shape_of(page, cell, latch, shape, font):
    """The dots that a cell has on scan lines: none if it sets attributes with ACD low, else graphics or its letter."""
    code = page[chars_of(page) + cell]
    if page[chars_of(page) + MEMORY + cell] & 128 and page[26] & 48 == 16:
        return {}
    if is_b(page) and latch & 32:
        return drawing(font, code)
    return shape[code & 127] if code & 128 else {}


def seen(page, latch, shape, scans, dots):
    """Whether a cell is seen to have its letter or graphics, and to be struck, in field 0 or another: by its attributes, its shape, the scan
    lines that its row shows and the dots of these, of which the cell may show the first half only."""
    if not page[26] & 1 or latch & 2:
        return False, False
    lit = {scan: shape.get(scan, 0) << (page[27] > 10) & (1 << dots) - 1 for scan in scans}
    underlined = latch & 8 and page[5 + 7] & 15 == page[28]
    struck = latch & 32 and not is_b(page) and not underlined and lit.get(page[28], -1) not in (-1, (1 << dots) - 1)
    return any(lit.values()), bool(struck)


def picture_lines(page, font):
    """What a person reads in a page's picture: as sheet_lines, but from the files' bytes. Two rows that are the top and the bottom half
    of the same cells are a headline, and one line; what one of them shows is read."""
    shape, before, lines = list(shapes(font)), None, []
    high, columns = (page[5] >> 3 & 15) + 1, page[5 + 5] + 1
    for (_, code, cells), attributes in zip(walk(page), valid(page)):
        scans = {line // 2 if code == 2 else (high + line) // 2 if code == 3 else line for line in range(high)}
        hidden, struck, graphics = set(), set(), set()
        for i, (cell, latch) in enumerate(zip(cells, attributes)):
            dots = (page[27] + 1) // 2 if code and 2 * i + 1 == columns else page[27]
            is_seen, has_strike = seen(page, latch, shape_of(page, cell, latch, shape, font), scans, dots)
            is_graphics = is_b(page) and latch & 32
            hidden |= {i} if is_graphics or not is_seen else set()
            graphics |= {i} if is_graphics and is_seen else set()
            struck |= {i} if has_strike else set()
        if code == 3 and before == (2, cells):
            lines[-1] = lines[-1][0], lines[-1][1] & hidden, lines[-1][2] | struck, lines[-1][3] | graphics
        else:
            lines.append((letters(page, cells), hidden, struck, graphics))
        before = code, cells
    return lines
