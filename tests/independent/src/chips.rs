//! What the scripts met of R-7: cells with bit 5 in whole frames, groups of every size, boards of every version and
//! chip, and files of every version with heads and sizes that are right and wrong.

use std::collections::BTreeMap;

use crate::files::{font_length, page_length};
use crate::met::{print_row, CODED, UNCODED};

/// Groups 0 to 4, and a font without groups.
const GROUPS: [&str; 6] = ["group 0", "group 1", "group 2", "group 3", "group 4", "no groups"];

/// Every code on every scan line.
const ALL_SHAPES: u64 = 256 * 16;

/// With what bit 5 was met in a cell. The last two are of field mode alone.
const WITH: [&str; 9] =
    ["reverse", "blank", "blink", "underline", "highlight", "cursor", "strike line", "sets", "runs on"];

/// Calls that take groups, and how many they may be lent: from none to one too many.
const TAKE_GROUPS: [&str; 4] = ["font_read", "line_draw", "picture_draw", "step"];
const SIZES: usize = 18;

/// Calls that draw with groups, and which of these is the first that is above 4.
const DRAW: [&str; 3] = ["line_draw", "picture_draw", "step"];
const ABOVE: [&str; 4] = ["none above 4", "the first", "one between", "the last"];

/// Calls that take a board, versions, and chip bytes.
const TAKE_BOARD: [&str; 6] = ["numbers_of", "set_video", "write", "read", "state_at", "step"];
const VERSIONS: [&str; 6] = ["version 0", "version 1", "version 2", "version 3", "version 4", "above 4"];
const CHIPS: [&str; 4] = ["chip 0", "chip 1", "2 to 254", "255"];

/// Files of a known version by their length field and size.
const HEADS: [&str; 6] = ["whole", "short", "long", "other field", "other size", "other both"];

type Table<const N: usize> = BTreeMap<(String, String), [u64; N]>;

#[derive(Default)]
pub struct Chips {
    /// By cell width, or for frames that show every shape, and mode, for each group.
    shapes: Table<6>,
    /// By mode, for each thing beside it.
    with: Table<9>,
    /// By call, for each size.
    groups: Table<SIZES>,
    /// By call and mode, for each place.
    above: Table<4>,
    /// By version and call, for each chip.
    boards: Table<4>,
    /// By call and version.
    files: Table<6>,
    strange: Vec<String>,
}

fn add<const N: usize>(table: &mut Table<N>, head: &str, of: &str, column: usize, count: u64) {
    table.entry((head.to_string(), of.to_string())).or_insert([0; N])[column] += count;
}

fn numbers(words: &[&str]) -> Vec<u64> {
    words.iter().map(|word| word.parse().unwrap_or(0)).collect()
}

impl Chips {
    pub fn count(&mut self, line: &str) {
        let words: Vec<&str> = line.split(' ').collect();
        let after = |name: &str| words.iter().rposition(|&word| word == name).map(|at| &words[at + 1..]);
        match (words[0], after("shapes"), after("with")) {
            ("frame", Some(shapes), Some(with)) if words[2] == "agree" => {
                self.frame(words[3], words[5], &numbers(&shapes[..6]), &numbers(with));
            }
            _ => (),
        }
        match (words[0], after("head"), after("file")) {
            ("page_read" | "font_read", Some([version, field, ..]), Some([size, ..])) => {
                self.file(words[0], version, field, size);
            }
            _ => (),
        }
        if let (true, Some([count, ..])) = (TAKE_GROUPS.contains(&words[0]), after("groups")) {
            self.lent_groups(words[0], words[4], count);
        }
        if let (true, Some([place, ..])) = (DRAW.contains(&words[0]), after("above")) {
            self.above_4(words[0], words[2], words[4], place);
        }
        match (after("board"), after("version"), after("chip")) {
            (Some([digits, ..]), _, _) if digits.len() == 94 => {
                let byte = |at: usize| u8::from_str_radix(&digits[2 * at..2 * at + 2], 16).unwrap_or(0);
                self.board(words[0], byte(0), byte(28));
            }
            (_, Some([version, ..]), Some([chip, ..])) => {
                self.board(words[0], version.parse().unwrap_or(0), chip.parse().unwrap_or(0));
            }
            _ => (),
        }
    }

    fn frame(&mut self, mode: &str, dots: &str, shapes: &[u64], with: &[u64]) {
        for (group, &count) in shapes.iter().enumerate() {
            add(&mut self.shapes, &format!("dots {}", dots), mode, group, count);
            add(&mut self.shapes, "every shape", mode, group, u64::from(count == ALL_SHAPES));
        }
        with.iter().enumerate().for_each(|(at, &count)| add(&mut self.with, "bit 5", mode, at, count));
    }

    /// "0 bytes for a version 1 font, 16 for version 2, any other size is 3": no call says otherwise, but that a file
    /// may be refused before.
    fn lent_groups(&mut self, call: &str, refusal: &str, count: &str) {
        let size = count.parse().unwrap_or(usize::MAX);
        if size < SIZES {
            add(&mut self.groups, call, "", size, 1);
        }
        let right = size == 0 || size == 16 || refusal == "3" || call == "font_read" && ["1", "2"].contains(&refusal);
        if !right {
            self.strange.push(format!("{} {} with {} groups", call, refusal, count));
        }
    }

    /// "12 also covers [..] a group above 4", whatever the page. Only refusals by 12 and, where there is none,
    /// calls that are done tell.
    fn above_4(&mut self, call: &str, mode: &str, refusal: &str, place: &str) {
        let column = match (place, refusal) {
            ("-", "0") => 0,
            ("0", "12") => 1,
            ("15", "12") => 3,
            (_, "12") if place != "-" => 2,
            ("-", _) | (_, "3") => return,
            _ => {
                self.strange.push(format!("{} {} {} with group {} above 4", call, mode, refusal, place));
                return;
            }
        };
        add(&mut self.above, call, mode, column, 1);
    }

    fn board(&mut self, call: &str, version: u8, chip: u8) {
        if !TAKE_BOARD.contains(&call) {
            return;
        }
        let column = match chip {
            0 | 1 => usize::from(chip),
            2..=254 => 2,
            255 => 3,
        };
        add(&mut self.boards, VERSIONS[usize::from(version).min(5)], call, column, 1);
    }

    /// The other version's length is that of a version with one part more or less.
    fn file(&mut self, call: &str, version: &str, field: &str, size: &str) {
        let (length_of, versions): (fn(u8) -> Option<u32>, &[u8]) = match call {
            "page_read" => (page_length, &[1, 3]),
            _ => (font_length, &[1, 2]),
        };
        let length = match version.parse().ok().and_then(length_of) {
            Some(length) => length,
            None => return,
        };
        let other = versions.iter().filter_map(|&version| length_of(version)).find(|&other| other != length);
        let (field, size) = (field.parse::<u32>().ok(), size.parse().unwrap_or(0));
        let other_size = other.map_or(0, |other| 5 + other);
        let column = if field == Some(length) && size == other_size {
            4
        } else if field == Some(length) {
            [1, 0, 2][(size >= 5 + length) as usize + (size > 5 + length) as usize]
        } else if field == other && size == 5 + length {
            3
        } else if field == other && size == other_size {
            5
        } else {
            return;
        };
        add(&mut self.files, call, &format!("version {}", version), column, 1);
    }

    /// Prints six tables and gives how many of their allowed cells are empty.
    pub fn print(&self) -> u64 {
        let modes = || UNCODED.into_iter().chain(CODED);
        let widths = (6..=12).map(|dots| format!("dots {}", dots)).chain(["every shape".to_string()]);
        let shapes = widths.flat_map(|head| modes().map(move |mode| (head.clone(), mode.to_string()))).collect();
        let with = modes().map(|mode| ("bit 5".to_string(), mode.to_string())).collect();
        let pairs = |heads: &[&str], of: &[&str]| -> Vec<(String, String)> {
            heads.iter().flat_map(|head| of.iter().map(move |of| (head.to_string(), of.to_string()))).collect()
        };
        let sizes: Vec<String> = (0..SIZES).map(|size| size.to_string()).collect();
        let size_heads: Vec<&str> = sizes.iter().map(String::as_str).collect();
        let drawn = pairs(&DRAW, &modes().collect::<Vec<&str>>());
        let pages = pairs(&["page_read"], &VERSIONS[1..4]);
        let files = [pages, pairs(&["font_read"], &VERSIONS[1..3])].concat();
        print_all("shapes", &GROUPS, &self.shapes, shapes, |_, _| true)
            + print_all("with", &WITH, &self.with, with, |mode, at| at < 7 || mode.starts_with("field"))
            + print_all("groups lent", &size_heads, &self.groups, pairs(&TAKE_GROUPS, &[""]), |_, _| true)
            + print_all("groups above 4", &ABOVE, &self.above, drawn, |_, _| true)
            + print_all("boards", &CHIPS, &self.boards, pairs(&VERSIONS, &TAKE_BOARD), |_, _| true)
            + print_all("files", &HEADS, &self.files, files, |_, _| true)
    }

    pub fn strange(&self) -> Vec<String> {
        self.strange.clone()
    }
}

fn print_all<const N: usize>(
    title: &str,
    columns: &[&str],
    table: &Table<N>,
    rows: Vec<(String, String)>,
    allowed: impl Fn(&str, usize) -> bool,
) -> u64 {
    print!("\n{:<16}{:<25}", title, "");
    columns.iter().for_each(|column| print!("{:>12}", column));
    println!();
    let mut empty = 0;
    for row in rows {
        let counts = table.get(&row).copied().unwrap_or([0; N]);
        empty += print_row(&row.0, &row.1, &counts, |at| allowed(&row.1, at));
    }
    empty
}
