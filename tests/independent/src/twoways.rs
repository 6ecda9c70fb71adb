//! Compares this program's two ways with each other: every clock of a frame, every line, states far away, boards
//! handed over anywhere, which the next frame brings back, sheets that are moved there and back, and the phrases of rows.

use crate::board::{Board, Font, Lent, Page, Place};
use crate::dice::{any_place, groups, page, phrases_about, place_cells, some_with_codes, Dice, Shape};
use crate::files::{numbers_of, page_of_numbers};
use crate::judge::Refusal;
use crate::records::Phrase;
use crate::script::filled;
use crate::{calls, machine, sheet};

#[derive(Default)]
pub struct Compared {
    pub clocks: u64,
    pub lines: u64,
    pub states: u64,
    pub in_field_mode: u64,
    pub of_chip_b: u64,
    /// Of pages whose rows have codes, the rows of double width.
    pub wide_rows: u64,
    /// Sheets.
    pub moved: u64,
    /// Rows that a record holds, and lists in which two differ.
    pub held: u64,
    pub differing: u64,
}

pub fn compare(seed: u64, pages: u64) -> Result<Compared, String> {
    let mut compared = Compared::default();
    for number in 0..pages {
        let mut dice = Dice::new(seed, number);
        one_page(&mut dice, &mut compared).map_err(|what| format!("page {} of seed {}: {}", number, seed, what))?;
    }
    Ok(compared)
}

fn one_page(dice: &mut Dice, compared: &mut Compared) -> Result<(), String> {
    let shape = Shape::small(dice);
    let mut page = page(dice, shape);
    place_cells(dice, &mut page);
    page.irs[2] |= dice.pick(&[0, 0x80]);
    page = some_with_codes(dice, 2, page);
    page.switches &= !u8::from(dice.one_in(8));
    let chars: Vec<u8> = filled(16384, dice.seed());
    let attrs = attributes(dice);
    let words: Vec<u16> = filled(1152, dice.seed());
    let flags: Vec<u8> = (0..128).map(|_| dice.pick(&[0, 1, 128])).collect();
    let lists: Vec<u8> = filled(18, dice.seed());
    let groups = groups(dice);
    let groups = if dice.one_in(4) { &[] } else { &groups[..] };
    let font = Font { words: &words, flags: &flags, unshifted: &lists[..9], shifted: &lists[9..], groups };
    let lent = Lent { chars: &chars, attrs: &attrs, font };
    page.cursor = sheet::row_start(&page, &chars, dice.between(0, page.rows() - 1));
    let board = Board { resets: dice.pick(&[0, 1, 2, 2, 2, 200]), ..Board::of_page(page) };
    if page_of_numbers(&numbers_of(&page)) != Some(page) {
        return Err("numbers there and back".to_string());
    }
    compared.in_field_mode += u64::from(page.field_mode());
    compared.of_chip_b += u64::from(page.is_chip_b());
    compared.wide_rows += wide_rows(&page, &chars);
    whole_frame(dice, &board, &lent, compared)?;
    far_states(dice, &board, &lent, compared)?;
    brought_back(dice, &board, &lent)?;
    if !page.row_table_on() {
        compared.moved += 1;
        there_and_back(&page, &lent)?;
    }
    (0..page.rows()).try_for_each(|row| phrases(dice, &board, &lent, row, compared))
}

fn wide_rows(page: &Page, chars: &[u8]) -> u64 {
    let wide = |row: u32| sheet::row_cells(page, chars, row).len() < page.hact() as usize;
    (0..page.rows()).map(|row| u64::from(wide(row))).sum()
}

/// AFLG in one of 2, 16 or 128 cells; not all may hide or blink.
fn attributes(dice: &mut Dice) -> Vec<u8> {
    let (cells, kept) = (dice.pick(&[2, 16, 128]), dice.pick(&[0x7F, 0x7D, 0x79]));
    let random: Vec<u8> = filled(16384, dice.seed());
    random.iter().map(|attribute| attribute & kept | u8::from(dice.one_in(cells)) << 7).collect()
}

fn whole_frame(dice: &mut Dice, board: &Board, lent: &Lent, compared: &mut Compared) -> Result<(), String> {
    let page = &board.page;
    let begin = dice.between(0, 300) * page.frame_clocks();
    let mut walked = machine::state_at(board, lent.chars, lent.attrs, begin);
    let field = walked.place.field;
    let (mut dots, mut shown) = (Vec::new(), Vec::new());
    for n in begin..begin + page.frame_clocks() {
        let stepped = one_step(&mut walked, lent);
        if stepped != sheet::moment(page, board.display_on(), lent, n) {
            return Err(format!("clock {}", n));
        }
        if stepped.place.line < page.visible_lines() && stepped.place.clock < page.hact() {
            dots.extend(&stepped.dots);
            shown.push(stepped.address);
        }
        compared.clocks += 1;
    }
    let on_line = |line: u32| on_columns(page, sheet::row_cells(page, lent.chars, line / page.lines_per_row()));
    if (0..page.visible_lines()).flat_map(on_line).collect::<Vec<u16>>() != shown {
        return Err("cells of the rows".to_string());
    }
    if !board.active() {
        return Ok(());
    }
    let lines: Vec<u8> = (0..page.visible_lines()).flat_map(|line| sheet::line(page, lent, line, field)).collect();
    compared.lines += u64::from(page.visible_lines());
    if lines == dots {
        Ok(())
    } else {
        Err(format!("lines of field {}", field))
    }
}

/// "A double width row shows fetched cell floor(c/2) in column c"
fn on_columns(page: &Page, cells: Vec<u16>) -> Vec<u16> {
    let wide = cells.len() < page.hact() as usize;
    (0..page.hact() as usize).map(|column| cells[if wide { column / 2 } else { column }]).collect()
}

fn one_step(walked: &mut Board, lent: &Lent) -> sheet::Moment {
    let place = walked.place;
    let shown = machine::step(walked, lent);
    let s = shown.signals;
    sheet::Moment {
        place,
        signals: [s.hsync, s.vsync, s.blank, s.cursor, s.blink],
        address: shown.address,
        dots: shown.dots[..walked.page.dots as usize].to_vec(),
    }
}

fn far_states(dice: &mut Dice, board: &Board, lent: &Lent, compared: &mut Compared) -> Result<(), String> {
    let frame = board.page.frame_clocks();
    let near_end = u32::MAX - dice.between(0, frame);
    for n in [0, 1, frame - 1, frame, frame + 1, 255 * frame + 3, 256 * frame - 1, 256 * frame, near_end, u32::MAX] {
        let place = sheet::place_at(&board.page, lent.chars, lent.attrs, n);
        if machine::state_at(board, lent.chars, lent.attrs, n) != (Board { place, ..*board }) {
            return Err(format!("state {}", n));
        }
        compared.states += 1;
    }
    Ok(())
}

/// A board handed over anywhere with any latches and row code: each step leaves the latches 0 or with AFLG, and of the code
/// what counts. Row 0 loads address, latch and code, so that nothing but the field count is left after the frame that the
/// board stood in and one more.
fn brought_back(dice: &mut Dice, board: &Board, lent: &Lent) -> Result<(), String> {
    let page = &board.page;
    let mut walked = Board { place: any_place(dice, page), ..*board };
    let left = page.frame_clocks() - walked.place.line * page.ht() - walked.place.clock;
    let field = walked.place.field;
    for _ in 0..left + page.frame_clocks() {
        machine::step(&mut walked, lent);
        let strange = |latch: u8| latch != 0 && (latch < 128 || !page.field_mode());
        if strange(walked.place.latch) || strange(walked.place.row_latch) {
            return Err("a latch handed over".to_string());
        }
        if walked.place.row_code > if page.rows_have_codes() { 3 } else { 0 } {
            return Err("a code handed over".to_string());
        }
    }
    let place = sheet::place_at(page, lent.chars, lent.attrs, page.frame_clocks());
    if walked.place == (Place { field: field.wrapping_add(2), ..place }) {
        Ok(())
    } else {
        Err("a board handed over".to_string())
    }
}

/// Every clock of a sheet is the same where it was moved, and its table stands in the lowest gap that the clocks leave. Moved
/// back it "differs only in screen start 2 and the table's cells".
fn there_and_back(page: &Page, lent: &Lent) -> Result<(), String> {
    let (mut numbers, mut chars) = (numbers_of(page), lent.chars.to_vec());
    if calls::to_table(&mut numbers, &mut chars).refused() {
        return Err("a sheet that is not moved".to_string());
    }
    let table = page_of_numbers(&numbers).ok_or("a page that is none where it was moved")?;
    let (mut old, mut new) = (Board::of_page(*page), Board::of_page(table));
    let mut fetched = Vec::new();
    for n in 0..page.frame_clocks() {
        let Place { line, clock, .. } = old.place;
        let shown = machine::step(&mut old, lent);
        if shown != machine::step(&mut new, &Lent { chars: &chars, ..*lent }) || old.place != new.place {
            return Err(format!("clock {} of a page that was moved", n));
        }
        if line < page.visible_lines() && clock < page.hact() {
            fetched.push(shown.address);
        }
    }
    let size = 2 * page.rows() as u16;
    if table.start2 != lowest_gap(fetched, size) {
        return Err("the table's place".to_string());
    }
    let outside = |at: &usize| *at < table.start2.into() || *at >= (table.start2 + size).into();
    let refused = calls::to_sheet(&mut numbers, &chars).refused();
    let same = numbers_of(&Page { start2: table.start2, ..*page }) == numbers;
    if !refused && same && (0..16384).filter(outside).all(|at| chars[at] == lent.chars[at]) {
        Ok(())
    } else {
        Err("a sheet moved there and back".to_string())
    }
}

/// Where so many cells are between two that are fetched, or before the first or after the last of them.
fn lowest_gap(mut fetched: Vec<u16>, size: u16) -> u16 {
    fetched.sort_unstable();
    let mut free = 0;
    for address in fetched {
        if address >= free + size {
            return free;
        }
        free = address + 1;
    }
    free
}

/// The phrase of a row by the lowest and the highest address that its steps fetch, and the first pair as the least of all pairs.
fn phrases(dice: &mut Dice, board: &Board, lent: &Lent, row: u32, compared: &mut Compared) -> Result<(), String> {
    let page = &board.page;
    let mut walked = machine::state_at(board, lent.chars, lent.attrs, row * page.lines_per_row() * page.ht());
    let fetched: Vec<u16> = (0..page.hact()).map(|_| machine::step(&mut walked, lent).address).collect();
    let list = phrases_about(dice, &fetched);
    let asked = calls::phrase_of_row(&numbers_of(page), lent.chars, &list, row);
    let differ = calls::phrases_differ(&list);
    let last = |phrase: &Phrase| i64::from(phrase.first) + i64::from(phrase.length) - 1;
    let bad = list.iter().position(|phrase| last(phrase) < i64::from(phrase.first) || last(phrase) > 16383);
    let holds =
        |phrase: &Phrase| fetched.iter().all(|&cell| phrase.first <= cell.into() && i64::from(cell) <= last(phrase));
    let holder = list.iter().position(holds);
    let name = |at: usize| (list[at].language, list[at].number);
    let pairs = (0..list.len()).flat_map(|later| (0..later).map(move |earlier| (earlier, later)));
    let pair = pairs.filter(|&(a, b)| name(a) == name(b) && list[a] != list[b]).min();
    let expected = match bad {
        Some(at) => ((Refusal::plain(20), false, at), (Refusal::plain(20), false, at, 0)),
        None => {
            let (earlier, later) = pair.unwrap_or((0, 0));
            let of_row = (Refusal::NONE, holder.is_some(), holder.unwrap_or(0));
            (of_row, (Refusal::NONE, pair.is_some(), earlier, later))
        }
    };
    compared.held += u64::from(asked.1);
    compared.differing += u64::from(differ.1);
    if (asked, differ) == expected {
        Ok(())
    } else {
        Err(format!("phrases of row {}", row))
    }
}
