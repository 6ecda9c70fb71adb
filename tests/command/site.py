#!/usr/bin/env python3
"""site.py FOLDER EXAMPLE..: the web site made of the samples, compared with the texts that they are made of and with the
pictures that the C example draws, field by field. EXAMPLE.. is the command that runs it.

site.py --page PAGE LOOKS FOLDER EXAMPLE..: the pictures of one page in a site, which has to have so many."""
import html.parser
import pathlib
import re
import subprocess
import sys

import pages

VOID = {"meta", "img", "input"}
FONT = pages.SAMPLES / "graphics.font"
wrong = []


class Reader(html.parser.HTMLParser):
    """A web page, as the standard's parser would meet it if nothing is left open and nothing is guessed."""

    def __init__(self, path):
        super().__init__()
        self.path, self.open, self.tags, self.text = path, [], [], {}
        self.feed(path.read_text("utf-8"))
        self.close()
        if self.open:
            wrong.append(f"{path.name}: {self.open} stay open")

    def handle_starttag(self, tag, attributes):
        self.tags.append((tag, dict(attributes)))
        if len(dict(attributes)) != len(attributes):
            wrong.append(f"{self.path.name}: an attribute of {tag} stands twice")
        if tag not in VOID:
            self.open.append(tag)
            self.text.setdefault(tag, []).append("")

    def handle_endtag(self, tag):
        if not self.open or self.open.pop() != tag:
            wrong.append(f"{self.path.name}: {tag} ends out of its turn")

    def handle_data(self, data):
        for tag in set(self.open):
            self.text[tag][-1] += data

    def all(self, tag):
        return [attributes for name, attributes in self.tags if name == tag]


def same(what, got, wanted):
    if got != wanted:
        wrong.append(f"{what}: {got!r}, not {wanted!r}")


def local(folder, reader):
    """Every file that is named is there, and nothing is fetched from elsewhere."""
    names = [a["src"] for a in reader.all("img")] + [a["href"] for a in reader.all("a")]
    for name in names:
        if not re.fullmatch(r"[A-Za-z0-9_.-]+", name) or not (folder / name).is_file():
            wrong.append(f"{reader.path.name}: {name} is not there")
    text = reader.path.read_text("utf-8")
    if re.search(r"https?:|//|url\(|@import|<script|<link", text):
        wrong.append(f"{reader.path.name}: something is fetched")
    same(f"{reader.path.name}: beginning", text[:15], "<!DOCTYPE html>")
    same(f"{reader.path.name}: charset", reader.all("meta")[0], {"charset": "utf-8"})
    same(f"{reader.path.name}: one title", len([t for t in reader.text["title"] if t.strip()]), 1)


def look(style, field):
    """Which of the later pictures lies on top in a field, by the style's rules; None where it is the first."""
    period = re.search(r"--period: ([\d.]+)s", style)
    if period is None:
        return None
    at = field % round(float(period[1]) * 50) / round(float(period[1]) * 50) * 100
    top = None
    for name, frames in re.findall(r"@keyframes field(\d+) \{(.*)\}", style):
        steps = [(float(a), b) for a, b in re.findall(r"([\d.]+)% \{ opacity: ([01]) \}", frames)]
        if [opacity for place, opacity in steps if place <= at][-1] == "1":
            top = name
    return top


def pgm_of(path):
    """A PNG picture as the C example writes it. pngtopnm counts levels from 0 to what the file needs."""
    pgm = subprocess.run(["pngtopnm", path], capture_output=True, check=True).stdout
    kind, size, highest, levels = pgm.split(b"\n", 3)
    return kind + b"\n" + size + b"\n255\n" + bytes(level * 255 // int(highest) for level in levels)


def pictures(folder, page, style, command, fields):
    name = page.stem
    pgm = {path.name: pgm_of(path) for path in folder.glob(f"{name}.*png")}
    used = set()
    for field in fields:
        top = look(style, field)
        shown = f"{name}.png" if top is None else f"{name}.{top}.png"
        used.add(shown)
        drawn = subprocess.run([*command, page, FONT, str(field)], capture_output=True, check=True).stdout
        if pgm[shown] != drawn:
            wrong.append(f"{name}: field {field} does not look as {shown}")
    same(f"{name}: pictures shown", used, set(pgm))
    same(f"{name}: pictures that differ", len(set(pgm.values())), len(pgm))
    return len(pgm)


def web_page(folder, name, command):
    reader = Reader(folder / f"{name}.html")
    local(folder, reader)
    language = pages.language(name) or "en"
    same(f"{name}: language", reader.all("html")[0], {"lang": language})
    same(f"{name}: language of an unknown text", reader.all("div")[0].get("lang"), None if pages.language(name) else "")
    first, *others = reader.all("img")
    word = pages.GRAPHICS[language]
    same(f"{name}: the picture's text", first["alt"], pages.sample_text(name, f"[{pages.LABELS[language]}: ", "]", word))
    same(f"{name}: alternatives of the same picture", {a["alt"] for a in others} - {""}, set())
    same(f"{name}: the text", reader.text["pre"][0].removeprefix("\n"), pages.sample_text(name, "", "", word))
    same(f"{name}: size", [first["width"].encode(), first["height"].encode()], pgm_of(folder / f"{name}.png").split(None, 3)[1:3])
    fields = range(0, 256, 1 if name == "sheet" else 5)
    count = pictures(folder, pages.SAMPLES / f"{name}.page", reader.text["style"][0], command, fields)
    same(f"{name}: pictures on the page", 1 + len(others), count)
    same(f"{name}: a way to hold it still", len(reader.all("input")), int(count > 1))
    return count


def one_page(page, looks, folder, *command):
    page, folder = pathlib.Path(page), pathlib.Path(folder)
    style = Reader(folder / f"{page.stem}.html").text["style"][0]
    same(f"{page.stem}: looks", pictures(folder, page, style, command, range(256)), int(looks))


def samples(folder, *command):
    folder = pathlib.Path(folder)
    names = sorted(path.stem for path in pages.SAMPLES.glob("*.page"))
    counts = {name: web_page(folder, name, command) for name in names}
    same("looks", counts, dict.fromkeys(names, 1) | {"sheet": 3, "warning": 2, "brackets": 2, "headline": 2, "fr": 2})
    index = Reader(folder / "index.html")
    local(folder, index)
    same("index", [a["href"] for a in index.all("a")], [f"{name}.html" for name in names])
    same("languages", [a["lang"] for a in index.all("a")], [pages.language(name) or "" for name in names])
    made = {"index.html"} | {path.name for name in names for path in folder.glob(f"{name}.*")}
    same("files", {path.name for path in folder.iterdir()}, made)


def main(*arguments):
    if arguments[0] == "--page":
        one_page(*arguments[1:])
    else:
        samples(*arguments)
    for what in wrong[:10]:
        print(f"site: {what}")
    return 1 if wrong else 0


if __name__ == "__main__":
    sys.exit(main(*sys.argv[1:]))
