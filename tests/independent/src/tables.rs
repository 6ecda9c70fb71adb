//! the row table that a sheet gets, where it goes, and whether a page's own table is such a one. Naive on purpose: every
//! cell that a row fetches is marked, and every place is tried.

use crate::board::{Page, MEMORY};
use crate::sheet::{cells_from, row_end, row_start};

/// The cells of each row of a sheet: row 0 begins at screen start 1, and each other one where the row before ended.
fn sheet_rows(page: &Page) -> Vec<Vec<u16>> {
    let cells = cells_from(page, page.start1, page.rows() * page.hact());
    cells.chunks(page.hact() as usize).map(<[u16]>::to_vec).collect()
}

/// "a table of two bytes a row", low byte first; an address has 14 bits, so that the two upper bits of a high byte are 0
pub fn table_of(sheet: &Page) -> Vec<u8> {
    sheet_rows(sheet).iter().flat_map(|row| row[0].to_le_bytes()).collect()
}

/// "the lowest stretch of consecutive cells, not passing 16383, that no row fetches"
pub fn lowest_stretch(sheet: &Page) -> Option<usize> {
    let mut fetched = vec![false; MEMORY];
    sheet_rows(sheet).concat().iter().for_each(|&cell| fetched[usize::from(cell)] = true);
    let length = 2 * sheet.rows() as usize;
    (0..=MEMORY - length).find(|&place| !fetched[place..place + length].contains(&true))
}

/// "every later entry is where the row before ended"; "row 0 entry is anything"
pub fn entries_follow(page: &Page, chars: &[u8]) -> bool {
    (1..page.rows()).all(|row| row_start(page, chars, row) == row_end(page, chars, row - 1))
}
