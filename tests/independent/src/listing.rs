//! 01's listing program, and the same page as a picture file.

use crate::calls::{self, FontRoom};
use crate::files::{page_file_size, NUMBERS};
use crate::judge::Refusal;
use crate::script::Buffers;

/// "The listing program reads a page file [..], then a font file (the rest)"; R-7: it "takes a page's size from its
/// version byte". Of a version that is not known all is page.
pub fn page_and_font(input: &[u8]) -> (&[u8], &[u8]) {
    let size = input.first().and_then(|&version| page_file_size(version));
    input.split_at(size.map_or(input.len(), |size| size.min(input.len())))
}

pub fn listing(input: &[u8]) -> String {
    let (page, font) = page_and_font(input);
    let lines = match drawn(page, font, 0) {
        Ok(lines) => lines,
        Err(refusal) => return format!("refused {}\n", refusal),
    };
    // "visible lines, one space, dots in a line"
    let mut text = format!("{} {}\n", lines.len(), lines[0].len());
    for line in lines {
        // "black `.`, gray `o`, white `#`"
        text.extend(line.iter().map(|&level| ['.', 'o', '#'][usize::from(level)]));
        text.push('\n');
    }
    text
}

/// A gray picture (PGM): black 0, gray 170, white 255, as examples/draw.c writes.
pub fn pgm(page: &[u8], font: &[u8], field: u8) -> Result<Vec<u8>, u32> {
    let lines = drawn(page, font, field)?;
    let mut picture = format!("P5\n{} {}\n255\n", lines[0].len(), lines.len()).into_bytes();
    for line in lines {
        picture.extend(line.iter().map(|&level| [0, 170, 255][usize::from(level)]));
    }
    Ok(picture)
}

/// "A refused page or font prints `refused N`, page first."
fn drawn(page: &[u8], font: &[u8], field: u8) -> Result<Vec<Vec<u8>>, u32> {
    let mut b = Buffers {
        numbers: vec![0; NUMBERS],
        chars: vec![0; 16384],
        attrs: vec![0; 16384],
        words: vec![0; 1152],
        flags: vec![0; 128],
        unshifted: vec![0; 9],
        shifted: vec![0; 9],
        groups: vec![0; 16],
        ..Buffers::default()
    };
    accepted(calls::page_read(page, &mut b.numbers, &mut b.chars, &mut b.attrs))?;
    let room = FontRoom {
        words: &mut b.words,
        flags: &mut b.flags,
        unshifted: &mut b.unshifted,
        shifted: &mut b.shifted,
        groups: &mut b.groups,
    };
    let (refusal, groups) = calls::font_read(font, room);
    accepted(refusal)?;
    b.groups.truncate(groups as usize);
    let (_, lines, dots) = calls::page_size(&b.numbers);
    let draw = |line: u32| {
        let mut out = vec![0; dots as usize];
        accepted(calls::line_draw(&b.numbers, &b.lent(), line, field, &mut out)).map(|()| out)
    };
    (0..lines).map(draw).collect()
}

/// The number alone: the number beside it is not printed.
fn accepted(refusal: Refusal) -> Result<(), u32> {
    if refusal.refused() {
        Err(refusal.number)
    } else {
        Ok(())
    }
}
