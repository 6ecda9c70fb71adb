//! Reads scripts and prints this program's own answers, in the form that tests/scripts/SCRIPTS.md gives.

use std::io::{BufRead, Write};

use crate::bit5::Bit5;
use crate::board::{Board, Lent, Page, Place};
use crate::calls::{self, FontRoom};
use crate::files::{page_of_head, page_of_numbers};
use crate::judge::Refusal;
use crate::machine::Shown;
use crate::moved::{add_shown, Look, Movable};
use crate::registers;
use crate::script::{board_of_text, board_text, elements, hex, number, small, Buffers, Sum, Sums};
use crate::sheet;

/// "a frame at most 826,752 clocks"
const LONGEST_FRAME: u32 = 826_752;

const FONT_AND_MEMORIES: [&str; 7] = ["chars", "attrs", "words", "flags", "unshifted", "shifted", "groups"];

pub fn answer(input: &mut dyn BufRead, output: &mut dyn Write) -> Result<(), String> {
    let mut desk = Desk::new(output);
    let mut line = String::new();
    let mut at = 0;
    loop {
        line.clear();
        at += 1;
        if input.read_line(&mut line).map_err(|error| error.to_string())? == 0 {
            return desk.say("end");
        }
        desk.obey(line.trim_end()).map_err(|error| format!("line {}: {}", at, error))?;
    }
}

/// POWER and MODE: by the board handed over, or by the page of numbers or file alone.
#[derive(Clone, Copy)]
struct Handed {
    power: &'static str,
    mode: &'static str,
}

impl Handed {
    const NO_PAGE: Handed = Handed { power: "-", mode: "-" };

    /// Inactive with 0 resets, with 1, active.
    fn board(board: &Board) -> Handed {
        let power = match board.resets {
            0 => "inactive-0",
            1 => "inactive-1",
            _ => "active",
        };
        Handed { power, ..Handed::page(Some(board.page)) }
    }

    fn page(page: Option<Page>) -> Handed {
        Handed { power: "-", mode: page.map_or("-", mode) }
    }
}

fn mode(page: Page) -> &'static str {
    let modes = [
        ["character", "character+graphics", "character+codes", "character+codes+graphics"],
        ["field", "field+graphics", "field+codes", "field+codes+graphics"],
    ];
    if page.rows_have_codes() && !page.row_table_on() {
        return "no-table";
    }
    let (field, codes, graphics) = (page.field_mode(), page.rows_have_codes(), page.is_chip_b());
    modes[usize::from(field)][2 * usize::from(codes) + usize::from(graphics)]
}

/// WHERE a run of steps begins, by the board handed over.
fn begins(board: &Board) -> &'static str {
    let (page, place) = (&board.page, &board.place);
    let wide = page.rows_have_codes() && place.row_code % 4 != 0;
    match place.clock {
        clock if place.line >= page.visible_lines() || clock >= page.hact() => "off",
        0 => "load",
        _ if !wide => "plain",
        clock if clock % 2 == 1 => "right",
        clock if clock + 1 == page.hact() => "last",
        _ => "left",
    }
}

fn shown_text(shown: &Shown) -> String {
    let signals = shown.signals;
    let bit = |signal: bool| u32::from(signal);
    format!(
        "hsync {} vsync {} blank {} cursor {} blink {} address {} dots {}",
        bit(signals.hsync),
        bit(signals.vsync),
        bit(signals.blank),
        bit(signals.cursor),
        bit(signals.blink),
        shown.address,
        hex(&shown.dots)
    )
}

/// A file's version byte and length field, as far as it has them.
fn head_text(file: &[u8]) -> String {
    let version = file.first().map_or("-".to_string(), u8::to_string);
    let field = file.get(1..5).map(|b| u32::from_be_bytes([b[0], b[1], b[2], b[3]]));
    format!("head {} {}", version, field.map_or("-".to_string(), |length| length.to_string()))
}

struct Desk<'a> {
    output: &'a mut dyn Write,
    buffers: Buffers,
    sums: Sums,
    board: Board,
    given: Board,
    every: u32,
}

/// A run of steps: where it began, how many were done, their sum, and the last one's answer.
struct Steps {
    begins: &'static str,
    code: u8,
    done: u32,
    sum: Sum,
    refusal: Refusal,
    last: Shown,
}

impl Steps {
    fn from(board: &Board) -> Steps {
        let (begins, code) = (begins(board), board.place.row_code);
        Steps { begins, code, done: 0, sum: Sum::new(), refusal: Refusal::NONE, last: Shown::default() }
    }
}

/// What the steps of a frame show on its active clocks, in order.
struct Frame {
    clocks: u32,
    dots: Vec<u8>,
    addresses: Vec<u16>,
    counts: Counts,
}

/// What a frame meets, counted by the code of its rows.
#[derive(Default)]
struct Counts {
    /// The code of each row.
    codes: Vec<u8>,
    wrapped: [u32; 4],
    cursor: [u32; 4],
    latched: [u32; 4],
    bit5: Bit5,
}

impl Counts {
    /// A step that began at a place of a line that shows a row.
    fn step(&mut self, page: &Page, lent: &Lent, before: Place, shown: &Shown, after: Place) {
        let lines = page.lines_per_row();
        let code = after.row_code % 4;
        if before.clock == 0 && before.line % lines == 0 {
            self.codes.push(code);
        }
        self.cursor[usize::from(code)] += u32::from(shown.signals.cursor);
        self.latched[usize::from(code)] += u32::from(before.clock != 0 && before.latch != after.latch);
        self.bit5.step(page, lent, before, shown, after);
    }

    fn row(&mut self, row: u32, cells: &[u16]) {
        let code = usize::from(self.codes.get(row as usize).copied().unwrap_or(0));
        self.wrapped[code] += u32::from(sheet::wraps(cells));
    }

    fn text(&self) -> String {
        let rows = [0, 1, 2, 3].map(|code| self.codes.iter().filter(|&&one| one == code).count() as u32);
        let counts = [("rows", rows), ("wrapped", self.wrapped), ("cursor", self.cursor), ("latched", self.latched)];
        let by_code: String =
            counts.iter().map(|(name, [a, b, c, d])| format!(" {} {} {} {} {}", name, a, b, c, d)).collect();
        by_code + &self.bit5.text()
    }
}

impl<'a> Desk<'a> {
    fn new(output: &'a mut dyn Write) -> Desk<'a> {
        let (buffers, sums) = (Buffers::default(), Sums::default());
        Desk { output, buffers, sums, board: Board::default(), given: Board::default(), every: 0 }
    }

    fn say(&mut self, text: &str) -> Result<(), String> {
        writeln!(self.output, "{}", text).map_err(|error| error.to_string())
    }

    fn obey(&mut self, line: &str) -> Result<(), String> {
        let words: Vec<&str> = line.split(' ').collect();
        if self.buffers.obey(&words)? {
            return Ok(());
        }
        match words[..] {
            [""] => Ok(()),
            [first, ..] if first.starts_with('#') => Ok(()),
            ["script", name] => self.begin(name),
            ["board"] => self.place_board(self.given),
            ["board", digits] => self.place_board(board_of_text(digits)?),
            ["every", steps] => number(steps).map(|steps| self.every = steps),
            ["frame"] => self.frame(),
            ["moves", fields] => self.moves(&elements(fields)?),
            ["call", ref call @ ..] => self.call(call),
            _ => Err(format!("not understood: {}", line)),
        }
    }

    fn begin(&mut self, name: &str) -> Result<(), String> {
        self.buffers = Buffers::default();
        self.board = Board::default();
        self.given = Board::default();
        self.every = 0;
        self.say(&format!("script {}", name))
    }

    fn place_board(&mut self, board: Board) -> Result<(), String> {
        self.given = board;
        self.board = board;
        Ok(())
    }

    fn call(&mut self, words: &[&str]) -> Result<(), String> {
        match *words {
            ["page_check"] => self.page_check(),
            ["page_size"] => self.page_size().map(|_| ()),
            ["page_read"] => self.page_read(),
            ["page_write"] => self.page_write(),
            ["font_read"] => self.font_read(),
            ["line_draw", line, field] => self.line_draw(number(line)?, small(field)?),
            ["picture_draw", field] => self.picture_draw(small(field)?).map(|_| ()),
            ["row_run", row] => self.row_run(number(row)?),
            ["row_cells", row] => self.row_cells(number(row)?),
            ["phrase_of_row", row] => self.phrase_of_row(number(row)?),
            ["phrases_differ"] => self.phrases_differ(),
            ["to_table"] => self.to_table().map(|_| ()),
            ["to_sheet"] => self.to_sheet().map(|_| ()),
            ["power"] => self.power(),
            ["board_of"] => self.board_of(),
            ["numbers_of"] => self.numbers_of(),
            ["set_video", dots, strike, bkgnd, rblank] => {
                self.set_video(small(dots)?, small(strike)?, small(bkgnd)?, small(rblank)?)
            }
            ["write", address, byte] => self.write(small(address)?, small(byte)?),
            ["read", address] => self.read(small(address)?),
            ["state_at", n] => self.state_at(number(n)?),
            ["step", count] => self.step(number(count)?),
            _ => Err(format!("no such call: {}", words.join(" "))),
        }
    }

    /// "CALL POWER MODE COUNT REFUSAL BESIDE RESULTS BUFFERS"
    fn report(
        &mut self,
        call: &str,
        handed: Handed,
        count: u32,
        refusal: Refusal,
        results: &str,
        lent: &[&str],
    ) -> Result<(), String> {
        let buffers = self.sums.report(&mut self.buffers, lent)?;
        let space = if results.is_empty() { "" } else { " " };
        let Handed { power, mode } = handed;
        let Refusal { number, beside } = refusal;
        self.say(&format!("{} {} {} {} {} {}{}{}{}", call, power, mode, count, number, beside, space, results, buffers))
    }

    fn report_board(&mut self, call: &str, handed: Handed, refusal: Refusal, lent: &[&str]) -> Result<(), String> {
        let board = format!("board {}", board_text(&self.board));
        self.report(call, handed, 1, refusal, &board, lent)
    }

    /// Of a board that the answer does not show.
    fn chip_text(&self) -> String {
        format!("version {} chip {}", self.board.page.version, self.board.page.chip)
    }

    /// Which of the lent groups is the first that is refused.
    fn above_text(&self) -> String {
        let place = self.buffers.groups.iter().position(|&group| group > 4);
        format!("above {}", place.map_or("-".to_string(), |place| place.to_string()))
    }

    /// A call is handed the page of the numbers.
    fn numbers_handed(&self) -> Handed {
        Handed::page(page_of_numbers(&self.buffers.numbers))
    }

    fn page_check(&mut self) -> Result<(), String> {
        let refusal = calls::page_check(&self.buffers.numbers);
        self.report("page_check", self.numbers_handed(), 1, refusal, "", &["numbers"])
    }

    fn page_size(&mut self) -> Result<(Refusal, u32, u32), String> {
        let (refusal, lines, dots) = calls::page_size(&self.buffers.numbers);
        let results = format!("lines {} dots {}", lines, dots);
        self.report("page_size", self.numbers_handed(), 1, refusal, &results, &["numbers"])?;
        Ok((refusal, lines, dots))
    }

    fn page_read(&mut self) -> Result<(), String> {
        let b = &mut self.buffers;
        let handed = Handed::page(page_of_head(&b.file));
        let refusal = calls::page_read(&b.file, &mut b.numbers, &mut b.chars, &mut b.attrs);
        let head = head_text(&b.file);
        self.report("page_read", handed, 1, refusal, &head, &["file", "numbers", "chars", "attrs"])
    }

    fn page_write(&mut self) -> Result<(), String> {
        let b = &mut self.buffers;
        let refusal = calls::page_write(&b.numbers, &b.chars, &b.attrs, &mut b.out);
        self.report("page_write", self.numbers_handed(), 1, refusal, "", &["numbers", "chars", "attrs", "out"])
    }

    fn font_read(&mut self) -> Result<(), String> {
        let b = &mut self.buffers;
        let room = FontRoom {
            words: &mut b.words,
            flags: &mut b.flags,
            unshifted: &mut b.unshifted,
            shifted: &mut b.shifted,
            groups: &mut b.groups,
        };
        let (refusal, groups) = calls::font_read(&b.file, room);
        let results = format!("{} groups {}", head_text(&b.file), groups);
        let lent = [&["file"], &FONT_AND_MEMORIES[2..]].concat();
        self.report("font_read", Handed::NO_PAGE, 1, refusal, &results, &lent)
    }

    fn draw(&mut self, line: u32, field: u8) -> Refusal {
        let mut out = std::mem::take(&mut self.buffers.out);
        let refusal = calls::line_draw(&self.buffers.numbers, &self.buffers.lent(), line, field, &mut out);
        self.buffers.out = out;
        refusal
    }

    fn report_lines(&mut self, count: u32, refusal: Refusal, results: &str) -> Result<(), String> {
        let lent = [&["numbers"], &FONT_AND_MEMORIES[..], &["out"]].concat();
        let results = format!("{}{}", results, self.above_text());
        self.report("line_draw", self.numbers_handed(), count, refusal, &results, &lent)
    }

    fn line_draw(&mut self, line: u32, field: u8) -> Result<(), String> {
        let refusal = self.draw(line, field);
        self.report_lines(1, refusal, "")
    }

    fn picture_draw(&mut self, field: u8) -> Result<Refusal, String> {
        let mut out = std::mem::take(&mut self.buffers.out);
        let refusal = calls::picture_draw(&self.buffers.numbers, &self.buffers.lent(), field, &mut out);
        self.buffers.out = out;
        let lent = [&["numbers"], &FONT_AND_MEMORIES[..], &["out"]].concat();
        self.report("picture_draw", self.numbers_handed(), 1, refusal, &self.above_text(), &lent)?;
        Ok(refusal)
    }

    fn cells(&mut self, row: u32) -> (Refusal, u32) {
        let b = &mut self.buffers;
        calls::row_cells(&b.numbers, &b.chars, row, &mut b.cells)
    }

    fn report_cells(&mut self, count: u32, refusal: Refusal, results: &str) -> Result<(), String> {
        self.report("row_cells", self.numbers_handed(), count, refusal, results, &["numbers", "chars", "cells"])
    }

    fn row_cells(&mut self, row: u32) -> Result<(), String> {
        let (refusal, count) = self.cells(row);
        self.report_cells(1, refusal, &format!("count {}", count))
    }

    fn row_run(&mut self, row: u32) -> Result<(), String> {
        let (refusal, first, count) = calls::row_run(&self.buffers.numbers, &self.buffers.chars, row);
        let results = format!("first {} count {}", first, count);
        self.report("row_run", self.numbers_handed(), 1, refusal, &results, &["numbers", "chars"])
    }

    /// Of which KIND the cells are that a row fetches.
    fn row_kind(&self, row: u32) -> &'static str {
        let mut cells = [0; 256];
        let (refusal, count) = calls::row_cells(&self.buffers.numbers, &self.buffers.chars, row, &mut cells);
        let hact = page_of_numbers(&self.buffers.numbers).map_or(0, |page| page.hact());
        match (refusal, count < hact, sheet::wraps(&cells[..count as usize])) {
            (Refusal::NONE, false, false) => "plain",
            (Refusal::NONE, false, true) => "wraps",
            (Refusal::NONE, true, false) => "wide",
            (Refusal::NONE, true, true) => "wide+wraps",
            _ => "-",
        }
    }

    fn phrase_of_row(&mut self, row: u32) -> Result<(), String> {
        let b = &self.buffers;
        let (refusal, found, position) = calls::phrase_of_row(&b.numbers, &b.chars, &b.phrases, row);
        let results = format!("found {} position {} row {}", u32::from(found), position, self.row_kind(row));
        self.report("phrase_of_row", self.numbers_handed(), 1, refusal, &results, &["numbers", "chars", "phrases"])
    }

    fn phrases_differ(&mut self) -> Result<(), String> {
        let (refusal, found, earlier, later) = calls::phrases_differ(&self.buffers.phrases);
        let results = format!("found {} earlier {} later {}", u32::from(found), earlier, later);
        self.report("phrases_differ", Handed::NO_PAGE, 1, refusal, &results, &["phrases"])
    }

    fn to_table(&mut self) -> Result<Refusal, String> {
        let handed = self.numbers_handed();
        let refusal = calls::to_table(&mut self.buffers.numbers, &mut self.buffers.chars);
        self.report("to_table", handed, 1, refusal, "", &["numbers", "chars"])?;
        Ok(refusal)
    }

    fn to_sheet(&mut self) -> Result<Refusal, String> {
        let handed = self.numbers_handed();
        let refusal = calls::to_sheet(&mut self.buffers.numbers, &self.buffers.chars);
        self.report("to_sheet", handed, 1, refusal, "", &["numbers", "chars"])?;
        Ok(refusal)
    }

    fn power(&mut self) -> Result<(), String> {
        self.board = Board::power();
        self.report_board("power", Handed::NO_PAGE, Refusal::NONE, &[])
    }

    fn board_of(&mut self) -> Result<(), String> {
        let (refusal, board) = calls::board_of(&self.buffers.numbers);
        self.board = board;
        self.report_board("board_of", self.numbers_handed(), refusal, &["numbers"])
    }

    fn numbers_of(&mut self) -> Result<(), String> {
        let refusal = calls::numbers_of(&self.board, &mut self.buffers.numbers);
        self.report("numbers_of", Handed::board(&self.board), 1, refusal, &self.chip_text(), &["numbers"])
    }

    fn set_video(&mut self, dots: u8, strike: u8, bkgnd: u8, rblank: u8) -> Result<(), String> {
        let handed = Handed::board(&self.board);
        let refusal = registers::set_video(&mut self.board, dots, strike, bkgnd != 0, rblank != 0);
        self.report_board("set_video", handed, refusal, &[])
    }

    fn write(&mut self, address: u8, byte: u8) -> Result<(), String> {
        let handed = Handed::board(&self.board);
        let refusal = registers::write(&mut self.board, address, byte);
        self.report_board("write", handed, refusal, &[])
    }

    fn read(&mut self, address: u8) -> Result<(), String> {
        let (refusal, byte) = registers::read(&self.board, address);
        let results = format!("byte {} {}", byte, self.chip_text());
        self.report("read", Handed::board(&self.board), 1, refusal, &results, &[])
    }

    fn state_at(&mut self, n: u32) -> Result<(), String> {
        let handed = Handed::board(&self.board);
        let (refusal, board) = calls::state_at(&self.board, &self.buffers.chars, &self.buffers.attrs, n);
        self.board = board.ok_or_else(|| format!("the two ways differ at clock {}", n))?;
        self.report_board("state_at", handed, refusal, &["chars", "attrs"])
    }

    /// One step more, added to the run of them.
    fn step_once(&mut self, steps: &mut Steps) -> Result<(), String> {
        let (refusal, shown) = calls::step(&mut self.board, &self.buffers.lent());
        steps.last = shown;
        steps.refusal = refusal;
        if refusal.refused() {
            return Ok(());
        }
        steps.done += 1;
        add_step(&mut steps.sum, &shown, &self.board);
        if self.every != 0 && steps.done % self.every == 0 {
            let board = board_text(&self.board);
            self.say(&format!("at {} {} board {}", steps.done, shown_text(&shown), board))?;
        }
        Ok(())
    }

    fn report_steps(&mut self, steps: &Steps) -> Result<(), String> {
        let (begins, code, sum) = (steps.begins, steps.code, steps.sum.0);
        let (shown, board) = (shown_text(&steps.last), board_text(&self.board));
        let above = self.above_text();
        let results = format!("from {} {} sum {:016x} {} board {} {}", begins, code, sum, shown, board, above);
        let count = if !steps.refusal.refused() { steps.done } else { 1 };
        self.report("step", Handed::board(&self.board), count, steps.refusal, &results, &FONT_AND_MEMORIES)
    }

    fn step(&mut self, count: u32) -> Result<(), String> {
        let mut steps = Steps::from(&self.board);
        while steps.done < count && !steps.refusal.refused() {
            self.step_once(&mut steps)?;
        }
        self.report_steps(&steps)
    }

    /// A whole frame by steps, by `line_draw` and by `picture_draw`, and all its rows' cells: whether the dots are the same, and
    /// the cells those that the steps fetched on each line; and what it met.
    fn frame(&mut self) -> Result<(), String> {
        let (refusal, lines, width) = self.page_size()?;
        if refusal.refused() {
            return Ok(());
        }
        let field = self.board.place.field;
        let mut stepped = self.frame_by_steps(lines, width)?;
        let drawn = self.frame_by_lines(lines, width, field)?;
        let picture = self.frame_as_picture(lines, width, field)?;
        let cells = self.frame_by_rows(lines, &mut stepped.counts)?;
        let agree = stepped.dots == drawn && stepped.dots == picture && stepped.addresses == cells;
        let page = self.board.page;
        let shape = format!("dots {} columns {} lines {}", page.dots, page.hact(), page.lines_per_row());
        let found = format!("{} {} {}", agreed(agree), mode(page), shape);
        self.say(&format!("frame {} {}{}", stepped.clocks, found, stepped.counts.text()))
    }

    fn frame_by_steps(&mut self, lines: u32, width: u32) -> Result<Frame, String> {
        let mut picture = vec![0; lines as usize * width as usize];
        let mut addresses = Vec::new();
        let mut counts = Counts::default();
        let mut steps = Steps::from(&self.board);
        loop {
            let (place, dots) = (self.board.place, self.board.page.dots);
            self.step_once(&mut steps)?;
            if steps.refusal.refused() {
                break;
            }
            if place.line < lines && (place.clock + 1) * dots <= width {
                let at = (place.line * width + place.clock * dots) as usize;
                picture[at..at + dots as usize].copy_from_slice(&steps.last.dots[..dots as usize]);
                addresses.push(steps.last.address);
                counts.step(&self.board.page, &self.buffers.lent(), place, &steps.last, self.board.place);
            }
            if (self.board.place.line, self.board.place.clock) == (0, 0) || steps.done == LONGEST_FRAME {
                break;
            }
        }
        self.report_steps(&steps)?;
        Ok(Frame { clocks: steps.done, dots: picture, addresses, counts })
    }

    fn frame_by_lines(&mut self, lines: u32, width: u32, field: u8) -> Result<Vec<u8>, String> {
        self.buffers.fill("out", width as usize, 0)?;
        let mut picture = Vec::new();
        let (mut done, mut refusal) = (0, Refusal::NONE);
        while done < lines && !refusal.refused() {
            refusal = self.draw(done, field);
            if !refusal.refused() {
                picture.extend(&self.buffers.out);
                done += 1;
            }
        }
        let count = if !refusal.refused() { done } else { 1 };
        self.report_lines(count, refusal, &format!("sum {:016x} ", Sum::of(&picture).0))?;
        Ok(picture)
    }

    fn frame_as_picture(&mut self, lines: u32, width: u32, field: u8) -> Result<Vec<u8>, String> {
        self.buffers.fill("out", lines as usize * width as usize, 0)?;
        self.picture_draw(field)?;
        Ok(self.buffers.out.clone())
    }

    /// The cells of each row, as often as it has lines; each on one column, or on two where they are half as many.
    fn frame_by_rows(&mut self, lines: u32, counts: &mut Counts) -> Result<Vec<u16>, String> {
        // IR4[6:0] is rows, n+1; IR5 is HACT, n+1
        let rows = u32::from(self.buffers.numbers[5] & 0x7F) + 1;
        let columns = usize::from(self.buffers.numbers[6]) + 1;
        self.buffers.fill("cells", 256, 1)?;
        let (mut found, mut sum) = (Vec::new(), Sum::new());
        let (mut done, mut refusal) = (0, Refusal::NONE);
        while done < rows && !refusal.refused() {
            let (answer, count) = self.cells(done);
            refusal = answer;
            if !refusal.refused() {
                let row = &self.buffers.cells[..count as usize];
                row.iter().for_each(|&address| sum.add(u32::from(address)));
                let each = if row.len() == columns { 1 } else { 2 };
                let shown = || row.iter().flat_map(|&cell| [cell, cell].into_iter().take(each)).take(columns);
                (0..lines / rows).for_each(|_| found.extend(shown()));
                counts.row(done, row);
                done += 1;
            }
        }
        let count = if !refusal.refused() { done } else { 1 };
        self.report_cells(count, refusal, &format!("sum {:016x}", sum.0))?;
        Ok(found)
    }

    /// A move, its refusal, and whether it changed nothing that it must not.
    fn moved(&mut self, there: bool) -> Result<(Refusal, bool), String> {
        let before = Movable::of(&self.buffers);
        let refusal = if there { self.to_table()? } else { self.to_sheet()? };
        let now = Movable::of(&self.buffers);
        let alone = if refusal.refused() { before == now } else { before.changed_alone(there, &now) };
        Ok((refusal, alone))
    }

    fn look(&self, fields: &[u8]) -> Look {
        Look::at(&Movable::of(&self.buffers), self.buffers.lent(), fields)
    }

    /// The page is moved to the other kind, and back to its own, and has to show the same each time. Then all is put as it was.
    fn moves(&mut self, fields: &[u8]) -> Result<(), String> {
        if self.page_size()?.0.refused() {
            return Ok(());
        }
        let (given, mode) = (Movable::of(&self.buffers), self.numbers_handed().mode);
        let there = given.is_sheet();
        let [out, home] = if there { ["there", "back"] } else { ["back", "there"] };
        let (first, mut agree) = self.moved(there)?;
        if first.refused() {
            return self.say(&format!("moves {} {} {} {}", out, first.number, agreed(agree), mode));
        }
        let look = Look::at(&given, self.buffers.lent(), fields);
        agree &= !look.refusal.refused() && look == self.look(fields);
        let (second, alone) = self.moved(!there)?;
        let now = Movable::of(&self.buffers);
        agree &= alone && given.came_home(&now, second) && look == self.look(fields);
        let (place, rows) = now.table();
        self.buffers.numbers = given.numbers;
        self.buffers.chars = given.chars;
        let answers = format!("{} {} {} {} {} {}", out, first.number, home, second.number, agreed(agree), mode);
        self.say(&format!("moves {} table {} rows {} {}", answers, place, rows, look.text()))
    }
}

fn agreed(agree: bool) -> &'static str {
    if agree {
        "agree"
    } else {
        "differ"
    }
}

fn add_step(sum: &mut Sum, shown: &Shown, board: &Board) {
    add_shown(sum, shown);
    sum.add(u32::from(board.place.field));
    sum.add(board.place.line);
    sum.add(board.place.clock);
    sum.add(u32::from(board.place.address));
    sum.add(u32::from(board.place.latch));
    sum.add(u32::from(board.place.row_start));
    sum.add(u32::from(board.place.row_latch));
    sum.add(u32::from(board.place.row_code));
}
