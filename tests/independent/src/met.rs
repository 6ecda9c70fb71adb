//! What the scripts met of R-4: whole frames by the codes of their rows, and where runs of steps began; of R-5: which pages were
//! moved; and of R-6: which rows phrases were asked for, and lists of which length. A number that no script meets is as empty as
//! an answer that none gets.

use std::collections::BTreeMap;

pub const CODED: [&str; 4] = ["character+codes", "field+codes", "character+codes+graphics", "field+codes+graphics"];
pub const UNCODED: [&str; 4] = ["character", "field", "character+graphics", "field+graphics"];

/// Under which heads the rows of a frame count: each cell width, and what of its shape matters.
const HEADS: [&str; 17] = [
    "dots 6",
    "dots 7",
    "dots 8",
    "dots 9",
    "dots 10",
    "dots 11",
    "dots 12",
    "columns 1",
    "columns odd",
    "columns even",
    "lines 1",
    "lines odd",
    "lines even",
    "wrapped",
    "cursor",
    "latched",
    "bit5",
];

/// Places of `from`, and code bytes.
const PLACES: [&str; 6] = ["off", "load", "plain", "left", "right", "last"];
const BYTES: [&str; 5] = ["0", "1", "2", "3", "above 3"];

/// The ways of a page: a sheet's, and those of a page with a table, for which there may be no room again.
const WAYS: [&str; 3] = ["there 0 back 0", "back 0 there 0", "back 0 there 17"];

/// Where a move wrote its table: at the beginning of memory, at its end, and between; and for how many rows.
const TABLES: [&str; 7] = ["at 0", "at odd", "at even", "to 16383", "rows 1", "rows 128", "other rows"];

/// What came of a question about phrases.
const FOUND: [&str; 3] = ["found", "none", "20"];

/// The kinds of rows; only where rows have codes are there wide ones.
const ROWS: [&str; 4] = ["plain", "wraps", "wide", "wide+wraps"];

/// How many records a list has.
const LISTS: [&str; 4] = ["no record", "1 record", "some records", "1000 or more"];

#[derive(Default)]
pub struct Met {
    /// By mode and head, for each code.
    frames: BTreeMap<(String, String), [u64; 4]>,
    /// By mode and place, for each kind of code byte.
    begun: BTreeMap<(String, String), [u64; 5]>,
    /// By way and head, for each mode without codes.
    moved: BTreeMap<(String, String), [u64; 4]>,
    /// By kind of row and mode, and by call and length of the list, for each outcome.
    asked: BTreeMap<(String, String), [u64; 3]>,
}

impl Met {
    /// An answer's line: a frame, a run of steps that was not refused, a page that was moved, or a question about phrases.
    pub fn count(&mut self, line: &str) {
        let words: Vec<&str> = line.split(' ').collect();
        match words[..] {
            ["frame", _, "agree", mode, "dots", dots, "columns", columns, "lines", lines, ref counts @ ..] => {
                let shape = [format!("dots {}", dots), size("columns", columns), size("lines", lines)];
                self.frame(mode, &shape, counts);
            }
            ["step", _, mode, _, "0", _, "from", place, code, ..] => {
                let kind = code.parse().map_or(4, |code: usize| code.min(4));
                self.begun.entry((mode.to_string(), place.to_string())).or_default()[kind] += 1;
            }
            ["moves", out, a, home, b, "agree", mode, "table", place, "rows", rows, ..] => {
                self.moved_page(&format!("{} {} {} {}", out, a, home, b), mode, place, rows);
            }
            ["phrase_of_row", _, mode, _, refusal, _, "found", found, _, _, "row", row, .., "phrases", count, _] => {
                self.ask([row, mode], refusal, found);
                self.ask(["phrase_of_row", list_length(count)], refusal, found);
            }
            ["phrases_differ", _, _, _, refusal, _, "found", found, .., "phrases", count, _] => {
                self.ask(["phrases_differ", list_length(count)], refusal, found);
            }
            _ => (),
        }
    }

    /// The first of COUNTS are words, each with a number for each code behind it.
    fn frame(&mut self, mode: &str, shape: &[String], counts: &[&str]) {
        for part in counts.chunks(5).take_while(|part| part[0] != "shapes") {
            let rows = part[0] == "rows";
            let heads = if rows { shape.to_vec() } else { vec![part[0].to_string()] };
            for head in heads {
                let sums = self.frames.entry((mode.to_string(), head)).or_default();
                sums.iter_mut().zip(&part[1..]).for_each(|(sum, count)| *sum += count.parse().unwrap_or(0));
            }
        }
    }

    /// Where no table was written, only the way counts.
    fn moved_page(&mut self, way: &str, mode: &str, place: &str, rows: &str) {
        let (place, rows) = (place.parse().unwrap_or(0), rows.parse().unwrap_or(0));
        let mut heads = vec!["all"];
        if way != WAYS[2] {
            heads.extend(table_heads(place, rows));
        }
        let column = UNCODED.iter().position(|&one| one == mode);
        for head in heads {
            let counts = self.moved.entry((way.to_string(), head.to_string())).or_default();
            column.into_iter().for_each(|column| counts[column] += 1);
        }
    }

    /// A refusal other than 20 says nothing about phrases.
    fn ask(&mut self, head: [&str; 2], refusal: &str, found: &str) {
        let outcome = match (refusal, found) {
            ("0", "1") => 0,
            ("0", _) => 1,
            ("20", _) => 2,
            _ => return,
        };
        let [head, of] = head.map(str::to_string);
        self.asked.entry((head, of)).or_default()[outcome] += 1;
    }

    /// Prints four tables and gives how many of their allowed cells are empty.
    pub fn print(&self) -> u64 {
        println!("\n{:<16}{:<25}{:>12}{:>12}{:>12}{:>12}", "frames: rows", "mode", "00", "01", "10", "11");
        let mut empty = 0;
        for mode in CODED {
            for head in HEADS.iter().filter(|&&head| latches(mode, head)) {
                let counts = self.frames.get(&(mode.to_string(), head.to_string())).copied().unwrap_or_default();
                empty += print_row(head, mode, &counts, |_| true);
            }
        }
        print!("\n{:<16}{:<25}", "steps from", "mode");
        BYTES.iter().for_each(|byte| print!("{:>12}", byte));
        println!();
        for mode in UNCODED.into_iter().chain(CODED) {
            for place in PLACES {
                let counts = self.begun.get(&(mode.to_string(), place.to_string())).copied().unwrap_or_default();
                empty += print_row(place, mode, &counts, |byte| may_begin(mode, place, byte));
            }
        }
        empty + self.print_moved() + self.print_asked()
    }

    fn print_moved(&self) -> u64 {
        print!("\n{:<16}{:<25}", "moves", "table");
        UNCODED.iter().for_each(|mode| print!("{:>19}", mode));
        println!();
        let mut empty = 0;
        for way in WAYS {
            let heads: &[&str] = if way == WAYS[2] { &[] } else { &TABLES };
            for head in ["all"].iter().chain(heads) {
                let counts = self.moved.get(&(way.to_string(), head.to_string())).copied().unwrap_or_default();
                empty += print_columns(19, way, head, &counts, |_| true);
            }
        }
        empty
    }

    fn print_asked(&self) -> u64 {
        print!("\n{:<16}{:<25}", "phrases for", "");
        FOUND.iter().for_each(|outcome| print!("{:>12}", outcome));
        println!();
        let rows = UNCODED.into_iter().chain(CODED).flat_map(|mode| ROWS.map(|row| (row, mode)));
        let lists = ["phrase_of_row", "phrases_differ"].into_iter().flat_map(|call| LISTS.map(|list| (call, list)));
        let mut empty = 0;
        for (head, of) in rows.chain(lists) {
            let counts = self.asked.get(&(head.to_string(), of.to_string())).copied().unwrap_or_default();
            empty += print_row(head, of, &counts, |outcome| may_come(head, of, outcome));
        }
        empty
    }

    /// Runs that began where none can, and what cannot come of a row or a list.
    pub fn strange(&self) -> Vec<String> {
        let begun = self.begun.iter().flat_map(|((mode, place), counts)| {
            let met = (0..BYTES.len()).filter(|&byte| counts[byte] > 0 && !may_begin(mode, place, byte));
            met.map(move |byte| format!("step {} from {} with code {}", mode, place, BYTES[byte]))
        });
        let asked = self.asked.iter().flat_map(|((head, of), counts)| {
            let met = (0..FOUND.len()).filter(|&outcome| counts[outcome] > 0 && !may_come(head, of, outcome));
            met.map(move |outcome| format!("phrases for {} {}: {}", head, of, FOUND[outcome]))
        });
        begun.chain(asked).collect()
    }
}

/// Under which heads a table counts.
fn table_heads(place: u32, rows: u32) -> [&'static str; 2] {
    let (end, odd) = (place + 2 * rows, place % 2 == 1);
    let at = match place {
        0 => TABLES[0],
        _ if end == 16384 => TABLES[3],
        _ => TABLES[if odd { 1 } else { 2 }],
    };
    let size = match rows {
        1 => TABLES[4],
        128 => TABLES[5],
        _ => TABLES[6],
    };
    [at, size]
}

fn size(name: &str, number: &str) -> String {
    let odd = number.parse().map_or(false, |number: u32| number % 2 == 1);
    match number {
        "1" => format!("{} 1", name),
        _ => format!("{} {}", name, if odd { "odd" } else { "even" }),
    }
}

/// Nothing is latched in character mode.
fn latches(mode: &str, head: &str) -> bool {
    head != "latched" || mode.starts_with("field")
}

/// Without IR0[7] every row is plain; with it a byte's two low bits tell.
fn may_begin(mode: &str, place: &str, byte: usize) -> bool {
    let coded = CODED.contains(&mode);
    match place {
        "off" | "load" => true,
        "plain" => !coded || byte == 0 || byte == 4,
        _ => coded && byte != 0,
    }
}

fn list_length(count: &str) -> &'static str {
    LISTS[match count.parse().unwrap_or(0) {
        0 => 0,
        1 => 1,
        2..=999 => 2,
        _ => 3,
    }]
}

/// Only rows with codes are wide. In no record nothing is found or wrong, and one does not differ from itself.
fn may_come(head: &str, of: &str, outcome: usize) -> bool {
    match (head, of) {
        ("plain" | "wraps", _) => true,
        ("wide" | "wide+wraps", mode) => CODED.contains(&mode),
        (_, "no record") => outcome == 1,
        ("phrases_differ", "1 record") => outcome != 0,
        _ => LISTS.contains(&of),
    }
}

pub fn print_row(head: &str, mode: &str, counts: &[u64], allowed: impl Fn(usize) -> bool) -> u64 {
    print_columns(12, head, mode, counts, allowed)
}

fn print_columns(width: usize, head: &str, mode: &str, counts: &[u64], allowed: impl Fn(usize) -> bool) -> u64 {
    let mut empty = 0;
    print!("{:<16}{:<25}", head, mode);
    for (at, &count) in counts.iter().enumerate() {
        let text = match (allowed(at), count) {
            (true, 0) => "EMPTY".to_string(),
            (false, 0) => ".".to_string(),
            (_, count) => count.to_string(),
        };
        empty += u64::from(text == "EMPTY");
        print!("{:>width$}", text, width = width);
    }
    println!();
    empty
}
