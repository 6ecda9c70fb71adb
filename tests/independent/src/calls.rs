//! The calls of the C boundary, answered from 01. Each gives its refusal first. "A refusal returns zeros beside its
//! number (an empty part for a run) and the old state"; what was lent stays as it was.

use crate::board::{Board, Font, Lent, Page};
use crate::files::{self, page_of_numbers};
use crate::judge::{self, fault, Fault, Refusal};
use crate::machine::{self, Shown};
use crate::records::{self, Phrase};
use crate::{sheet, tables};

pub fn page_check(numbers: &[u8]) -> Refusal {
    match page_of_numbers(numbers) {
        Some(page) => judge::first(&judge::page(&page)),
        None => Refusal::plain(3),
    }
}

/// The refusal, visible lines, dots in a line.
pub fn page_size(numbers: &[u8]) -> (Refusal, u32, u32) {
    match (page_check(numbers), page_of_numbers(numbers)) {
        (Refusal::NONE, Some(page)) => (Refusal::NONE, page.visible_lines(), page.line_dots() as u32),
        (refusal, _) => (refusal, 0, 0),
    }
}

pub fn page_read(file: &[u8], numbers: &mut [u8], chars: &mut [u8], attrs: &mut [u8]) -> Refusal {
    let mut faults = judge::file(file, files::page_length);
    faults.extend([fault(3, numbers.len() != files::NUMBERS), judge::memory(chars), judge::memory(attrs)]);
    if judge::first(&faults).refused() {
        return judge::first(&faults);
    }
    let (page, file_chars, file_attrs) = files::page_parts(file);
    let refusal = judge::first(&judge::page(&page));
    if !refusal.refused() {
        numbers.copy_from_slice(&files::numbers_of(&page));
        chars.copy_from_slice(file_chars);
        attrs.copy_from_slice(file_attrs);
    }
    refusal
}

/// "bytes beyond stay, as do those beyond a written file"
pub fn page_write(numbers: &[u8], chars: &[u8], attrs: &[u8], out: &mut [u8]) -> Refusal {
    let page = match page_of_numbers(numbers) {
        Some(page) => page,
        None => return Refusal::plain(3),
    };
    let mut faults = judge::page(&page);
    let size = files::page_file_size(page.version).expect("numbers that are a page have a known version");
    // "or file output below the file's size"
    faults.extend([judge::memory(chars), judge::memory(attrs), fault(3, out.len() < size)]);
    let refusal = judge::first(&faults);
    if !refusal.refused() {
        out[..size].copy_from_slice(&files::page_file(&page, chars, attrs));
    }
    refusal
}

/// The parts of a font for a file to be read into.
pub struct FontRoom<'a> {
    pub words: &'a mut [u16],
    pub flags: &'a mut [u8],
    pub unshifted: &'a mut [u8],
    pub shifted: &'a mut [u8],
    pub groups: &'a mut [u8],
}

/// The refusal, and how many groups the file has. A version 2 file with no room for its groups is 3; one of version 1
/// leaves the lent groups, which are not judged, as they were.
pub fn font_read(file: &[u8], room: FontRoom) -> (Refusal, u32) {
    let FontRoom { words, flags, unshifted, shifted, groups } = room;
    let mut faults = judge::file(file, files::font_length);
    faults.extend(judge::font(&Font { words, flags, unshifted, shifted, groups }));
    if judge::first(&faults).refused() {
        return (judge::first(&faults), 0);
    }
    let font = files::font_parts(file);
    let refusal = judge::first(&[fault(3, groups.len() < font.groups.len()), judge::groups(&font.groups)]);
    if refusal.refused() {
        return (refusal, 0);
    }
    words.copy_from_slice(&font.words);
    flags.copy_from_slice(&font.flags);
    unshifted.copy_from_slice(&font.unshifted);
    shifted.copy_from_slice(&font.shifted);
    groups[..font.groups.len()].copy_from_slice(&font.groups);
    (Refusal::NONE, font.groups.len() as u32)
}

/// What drawing and stepping judge of what they are lent.
fn lent_faults(lent: &Lent) -> Vec<Fault> {
    let mut faults = judge::font(&lent.font);
    faults.extend([judge::memory(lent.chars), judge::memory(lent.attrs), judge::groups(lent.font.groups)]);
    faults
}

pub fn line_draw(numbers: &[u8], lent: &Lent, line: u32, field: u8, out: &mut [u8]) -> Refusal {
    let page = match page_of_numbers(numbers) {
        Some(page) => page,
        None => return Refusal::plain(3),
    };
    let mut faults = lent_faults(lent);
    faults.extend(judge::page(&page));
    faults.push(fault(7, line >= page.visible_lines()));
    // "8: line buffer too short"
    faults.push(fault(8, out.len() < page.line_dots()));
    let refusal = judge::first(&faults);
    if !refusal.refused() {
        out[..page.line_dots()].copy_from_slice(&sheet::line(&page, lent, line, field));
    }
    refusal
}

/// "All visible lines, end to end, a byte a dot [..] at the front of `out`, bytes beyond stay."
pub fn picture_draw(numbers: &[u8], lent: &Lent, field: u8, out: &mut [u8]) -> Refusal {
    let page = match page_of_numbers(numbers) {
        Some(page) => page,
        None => return Refusal::plain(3),
    };
    let mut faults = lent_faults(lent);
    faults.extend(judge::page(&page));
    faults.push(fault(8, out.len() < page.picture_dots()));
    let refusal = judge::first(&faults);
    if !refusal.refused() {
        for line in 0..page.visible_lines() {
            let from = line as usize * page.line_dots();
            out[from..from + page.line_dots()].copy_from_slice(&sheet::line(&page, lent, line, field));
        }
    }
    refusal
}

/// What a call judges that is asked for a row.
fn row_faults(page: &Page, chars: &[u8], row: u32) -> Vec<Fault> {
    let mut faults = judge::page(page);
    faults.extend([judge::memory(chars), fault(7, row >= page.rows())]);
    faults
}

/// The refusal, where the run begins, how many cells it has. "A refusal shows an empty part"
pub fn row_run(numbers: &[u8], chars: &[u8], row: u32) -> (Refusal, u32, u32) {
    let page = match page_of_numbers(numbers) {
        Some(page) => page,
        None => return (Refusal::plain(3), 0, 0),
    };
    match judge::first(&row_faults(&page, chars, row)) {
        Refusal::NONE => {
            let (first, count) = sheet::run(&page, chars, row);
            (Refusal::NONE, u32::from(first), count)
        }
        refusal => (refusal, 0, 0),
    }
}

/// "fewer than 256 elements, the most that a row can have"
const MOST_CELLS: usize = 256;

/// The refusal and how many cells the row fetches; their addresses stand in front, "elements beyond the row's cells stay".
pub fn row_cells(numbers: &[u8], chars: &[u8], row: u32, cells: &mut [u16]) -> (Refusal, u32) {
    let page = match page_of_numbers(numbers) {
        Some(page) => page,
        None => return (Refusal::plain(3), 0),
    };
    let mut faults = row_faults(&page, chars, row);
    faults.push(fault(3, cells.len() < MOST_CELLS));
    let refusal = judge::first(&faults);
    if refusal.refused() {
        return (refusal, 0);
    }
    let found = sheet::row_cells(&page, chars, row);
    cells[..found.len()].copy_from_slice(&found);
    (Refusal::NONE, found.len() as u32)
}

/// The refusal, whether a record holds the row, and its position. "20 for a record of length 0 or passing 16383, with the first
/// such position"; else a refusal and a row that no record holds give position 0.
pub fn phrase_of_row(numbers: &[u8], chars: &[u8], phrases: &[Phrase], row: u32) -> (Refusal, bool, usize) {
    let page = match page_of_numbers(numbers) {
        Some(page) => page,
        None => return (Refusal::plain(3), false, 0),
    };
    let bad = records::first_bad(phrases);
    let mut faults = row_faults(&page, chars, row);
    faults.push(fault(20, bad.is_some()));
    match judge::first(&faults) {
        Refusal::NONE => {
            let holder = records::holder(phrases, &sheet::row_cells(&page, chars, row));
            (Refusal::NONE, holder.is_some(), holder.unwrap_or(0))
        }
        refusal if refusal.number == 20 => (refusal, false, bad.unwrap_or(0)),
        refusal => (refusal, false, 0),
    }
}

/// The refusal, whether two records differ, and their positions; with 20 the position of the first record refused is the
/// earlier one.
pub fn phrases_differ(phrases: &[Phrase]) -> (Refusal, bool, usize, usize) {
    if let Some(bad) = records::first_bad(phrases) {
        return (Refusal::plain(20), false, bad, 0);
    }
    match records::first_pair(phrases) {
        Some((earlier, later)) => (Refusal::NONE, true, earlier, later),
        None => (Refusal::NONE, false, 0, 0),
    }
}

/// The page that is to be moved, or "the page's own" refusal.
fn page_to_move(numbers: &[u8], chars: &[u8]) -> Result<Page, Refusal> {
    let page = page_of_numbers(numbers).ok_or(Refusal::plain(3))?;
    let mut faults = judge::page(&page);
    faults.push(judge::memory(chars));
    match judge::first(&faults) {
        Refusal::NONE => Ok(page),
        refusal => Err(refusal),
    }
}

/// The page in the place of the one that the numbers held; the bytes after it stay.
fn put_page(numbers: &mut [u8], page: &Page) {
    let bytes = files::bytes_of(page);
    numbers[1..1 + bytes.len()].copy_from_slice(&bytes);
}

/// "The move writes a table [..]; it sets screen start 2 and IR2[7] and nothing else."
pub fn to_table(numbers: &mut [u8], chars: &mut [u8]) -> Refusal {
    let mut page = match page_to_move(numbers, chars) {
        Ok(page) => page,
        Err(refusal) => return refusal,
    };
    let stretch = tables::lowest_stretch(&page);
    let faults = [fault(16, page.row_table_on()), fault(19, page.rows_have_codes()), fault(17, stretch.is_none())];
    let refusal = judge::first(&faults);
    if let (Refusal::NONE, Some(place)) = (refusal, stretch) {
        let table = tables::table_of(&page);
        chars[place..place + table.len()].copy_from_slice(&table);
        page.start2 = place as u16;
        page.irs[2] |= 0x80;
        put_page(numbers, &page);
    }
    refusal
}

/// "it clears IR2[7], sets screen start 1 to the first entry, and leaves memory"
pub fn to_sheet(numbers: &mut [u8], chars: &[u8]) -> Refusal {
    let mut page = match page_to_move(numbers, chars) {
        Ok(page) => page,
        Err(refusal) => return refusal,
    };
    let apart = !tables::entries_follow(&page, chars);
    let faults = [fault(16, !page.row_table_on()), fault(19, page.rows_have_codes()), fault(18, apart)];
    let refusal = judge::first(&faults);
    if !refusal.refused() {
        page.start1 = sheet::row_start(&page, chars, 0);
        page.irs[2] &= 0x7F;
        put_page(numbers, &page);
    }
    refusal
}

/// A refused page gives the board that power gives.
pub fn board_of(numbers: &[u8]) -> (Refusal, Board) {
    match (page_check(numbers), page_of_numbers(numbers)) {
        (Refusal::NONE, Some(page)) => (Refusal::NONE, Board::of_page(page)),
        (refusal, _) => (refusal, Board::power()),
    }
}

/// "A board's page as 32 numbers, the way back": of the board only its page is judged.
pub fn numbers_of(board: &Board, numbers: &mut [u8]) -> Refusal {
    let mut faults = judge::page(&board.page);
    faults.push(fault(3, numbers.len() != files::NUMBERS));
    let refusal = judge::first(&faults);
    if !refusal.refused() {
        numbers.copy_from_slice(&files::numbers_of(&board.page));
    }
    refusal
}

/// "Drawing, stepping, states and runs give 3 to 8 and 12": what they judge of a board.
fn board_faults(board: &Board) -> Vec<Fault> {
    let mut faults = judge::page(&board.page);
    faults.extend(judge::place(board));
    faults.push(judge::pointer(board));
    faults
}

/// The state for clock n, found in both ways; `None` beside the refusal where they differ.
pub fn state_at(board: &Board, chars: &[u8], attrs: &[u8], n: u32) -> (Refusal, Option<Board>) {
    let mut faults = board_faults(board);
    faults.extend([judge::memory(chars), judge::memory(attrs)]);
    let refusal = judge::first(&faults);
    if refusal.refused() {
        return (refusal, Some(*board));
    }
    let worked_out = Board { place: sheet::place_at(&board.page, chars, attrs, n), ..*board };
    let stepped = machine::state_at(board, chars, attrs, n);
    (Refusal::NONE, Some(worked_out).filter(|&at| at == stepped))
}

pub fn step(board: &mut Board, lent: &Lent) -> (Refusal, Shown) {
    let mut faults = board_faults(board);
    faults.extend(lent_faults(lent));
    match judge::first(&faults) {
        Refusal::NONE => (Refusal::NONE, machine::step(board, lent)),
        refusal => (refusal, Shown::default()),
    }
}
