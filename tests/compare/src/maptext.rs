//! Map text as 01 has it: the reader and the writer.

use crate::floor::{Floor, Refusal, GREATEST_SIDE};

/// A map that was read.
#[derive(Clone, Debug, PartialEq)]
pub struct Map {
    pub width: u64,
    pub height: u64,
    pub cells: Vec<u8>,
}

/// A line of the header without its LF, and where the text goes on; nothing if the text ends inside the line.
fn line(text: &[u8], from: usize) -> Option<(&[u8], usize)> {
    let rest = &text[from..];
    let end = rest.iter().position(|byte| *byte == b'\n')?;
    Some((&rest[..end], from + end + 1))
}

/// A line that is exactly these words.
fn words(text: &[u8], from: usize, wanted: &[u8]) -> Option<usize> {
    let (found, next) = line(text, from)?;
    if found == wanted {
        return Some(next);
    }
    None
}

/// A line of a word and a side: "decimal, 1 to 256", since R-7 1 to 1,024, "no leading zero, one space before".
fn side(text: &[u8], from: usize, word: &[u8]) -> Option<(u64, usize)> {
    let (found, next) = line(text, from)?;
    let digits = found.strip_prefix(word)?;
    if digits.is_empty() || digits.len() > 4 || digits[0] == b'0' {
        return None;
    }
    let mut value = 0;
    for digit in digits {
        if !digit.is_ascii_digit() {
            return None;
        }
        value = 10 * value + (digit - b'0') as u64;
    }
    if value > GREATEST_SIDE {
        return None;
    }
    Some((value, next))
}

/// "`.` and `G` are weight 1; `1` to `9` their own weight; `@`, `O` and `T` blocked. All else is refused."
fn cell_of(byte: u8) -> Option<u8> {
    match byte {
        b'.' | b'G' => Some(1),
        b'1'..=b'9' => Some(byte - b'0'),
        b'@' | b'O' | b'T' => Some(0),
        _ => None,
    }
}

/// The reader, with a cell room of `room` bytes.
pub fn read_map(text: &[u8], room: usize) -> Result<Map, Refusal> {
    let refused = |number, place: usize| Refusal {
        number,
        place: place as u64,
    };
    let second = words(text, 0, b"type octile").ok_or(refused(21, 0))?;
    let (height, third) = side(text, second, b"height ").ok_or(refused(22, second))?;
    let (width, fourth) = side(text, third, b"width ").ok_or(refused(23, third))?;
    let rows = words(text, fourth, b"map").ok_or(refused(24, fourth))?;
    if (room as u64) < width * height {
        return Err(refused(29, 0));
    }
    let mut cells = Vec::new();
    let mut at = rows;
    for _ in 0..height {
        for _ in 0..width {
            let byte = *text.get(at).ok_or(refused(27, text.len()))?;
            cells.push(cell_of(byte).ok_or(refused(25, at))?);
            at += 1;
        }
        let byte = *text.get(at).ok_or(refused(27, text.len()))?;
        if byte != b'\n' {
            return Err(refused(26, at));
        }
        at += 1;
    }
    if at < text.len() {
        return Err(refused(28, at));
    }
    Ok(Map {
        width,
        height,
        cells,
    })
}

/// The text of a map that passed 1 to 3: "the writer uses `@`, `.` for weight 1, and `2` to `9`".
pub fn text_of(width: u64, height: u64, cells: &[u8]) -> Vec<u8> {
    let mut text = format!("type octile\nheight {}\nwidth {}\nmap\n", height, width).into_bytes();
    for row in cells.chunks(width as usize) {
        for weight in row {
            text.push(match weight {
                0 => b'@',
                1 => b'.',
                _ => b'0' + weight,
            });
        }
        text.push(b'\n');
    }
    text
}

/// The writer, with a text room of `room` bytes.
pub fn write_map(floor: Floor, map: &[u8], room: usize) -> Result<Vec<u8>, Refusal> {
    if let Some(refused) = floor.refused_map(map) {
        return Err(refused);
    }
    let text = text_of(floor.width, floor.height, map);
    if room < text.len() {
        return Err(Refusal {
            number: 30,
            place: 0,
        });
    }
    Ok(text)
}
