//! A second reading of 01, of 02's and of the papers, for comparing with the library.
//! It shares nothing with it. Start with `board`, then `machine` (the first way of drawing) and `sheet` (the second).

mod answer;
mod bit5;
mod board;
mod calls;
mod cases;
mod cells;
mod chips;
mod corners;
mod dice;
mod faults;
mod files;
mod graphics;
mod headlines;
mod input;
mod judge;
mod kinds;
mod latches;
mod listing;
mod machine;
mod make;
mod met;
mod moved;
mod moves;
mod phrases;
mod records;
mod registers;
mod script;
mod sheet;
mod stage;
mod tables;
mod twoways;

use std::fs::{self, File};
use std::io::{self, BufReader, BufWriter, Read, Write};
use std::process::exit;

const USAGE: &str = "usage: independent COMMAND
  self SEED PAGES            compares its own two ways, 01's cases, and those of R-1, R-2, R-4, R-5, R-6 and R-7
  make SEED COUNT [FIRST]    prints COUNT scripts, from number FIRST on; without FIRST the whole fixed list at least
  answer < SCRIPTS           prints its own answers
  cells COUNT OURS THEIRS    compares two streams of answers, prints the tables of what was met
  input SEED NUMBER          prints a page file and a font file, whole or damaged
  listing < PAGE-AND-FONT    01's listing
  pgm FIELD PAGE FONT        the same page as a picture";

fn main() {
    let arguments: Vec<String> = std::env::args().skip(1).collect();
    let words: Vec<&str> = arguments.iter().map(String::as_str).collect();
    if let Err(error) = run(&words) {
        eprintln!("independent: {}", error);
        exit(1);
    }
}

fn run(words: &[&str]) -> Result<(), String> {
    match *words {
        ["self", seed, pages] => compare_own(number(seed)?, number(pages)?),
        ["make", seed, count] => make(number(seed)?, number(count)?.max(make::fixed_count()), 0),
        ["make", seed, count, first] => make(number(seed)?, number(count)?, number(first)?),
        ["answer"] => {
            let mut output = BufWriter::new(io::stdout());
            answer::answer(&mut io::stdin().lock(), &mut output)?;
            output.flush().map_err(|error| error.to_string())
        }
        ["cells", count, ours, theirs] => {
            let open =
                |name: &str| File::open(name).map(BufReader::new).map_err(|error| format!("{}: {}", name, error));
            if cells::compare(number(count)?, &mut open(ours)?, &mut open(theirs)?)? {
                Ok(())
            } else {
                Err("not everything agreed".to_string())
            }
        }
        ["input", seed, which] => put(&input::input(number(seed)?, number(which)?)?),
        ["listing"] => {
            let mut input = Vec::new();
            io::stdin().read_to_end(&mut input).map_err(|error| error.to_string())?;
            put(listing::listing(&input).as_bytes())
        }
        ["pgm", field, page, font] => picture((number(field)? % 256) as u8, page, font),
        _ => Err(USAGE.to_string()),
    }
}

fn number(text: &str) -> Result<u64, String> {
    text.parse().map_err(|_| format!("no number: {}", text))
}

fn make(seed: u64, count: u64, first: u64) -> Result<(), String> {
    let mut output = BufWriter::new(io::stdout());
    make::make(seed, count, first, &mut output)?;
    output.flush().map_err(|error| error.to_string())
}

fn compare_own(seed: u64, pages: u64) -> Result<(), String> {
    for (name, came_out) in cases::all() {
        if !came_out {
            return Err(format!("case {} does not come out", name));
        }
    }
    let compared = twoways::compare(seed, pages)?;
    println!("{} cases of 01, R-1, R-2, R-4, R-5, R-6 and R-7 come out", cases::all().len());
    let (field, chip_b, wide) = (compared.in_field_mode, compared.of_chip_b, compared.wide_rows);
    let modes =
        format!("{} pages, {} in field mode, {} of chip B, {} rows of double width", pages, field, chip_b, wide);
    println!("{}: {} clocks, {} lines, {} states agree", modes, compared.clocks, compared.lines, compared.states);
    println!("{} sheets moved there and back", compared.moved);
    println!("{} rows that a phrase holds, {} lists in which two differ", compared.held, compared.differing);
    Ok(())
}

fn picture(field: u8, page: &str, font: &str) -> Result<(), String> {
    let read = |name: &str| fs::read(name).map_err(|error| format!("{}: {}", name, error));
    let picture = listing::pgm(&read(page)?, &read(font)?, field).map_err(|refusal| format!("refused {}", refusal))?;
    put(&picture)
}

fn put(bytes: &[u8]) -> Result<(), String> {
    io::stdout().write_all(bytes).map_err(|error| error.to_string())
}
