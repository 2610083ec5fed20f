//! Random map texts: good ones, torn ones, and ones at the edges of 01's rules.

use crate::floors::Drawn;
use crate::maptext::text_of;
use crate::random::Random;

/// The text of a floor as the writer writes it, or with other characters for the same cells.
pub fn good_text(random: &mut Random, drawn: &Drawn) -> Vec<u8> {
    let mut text = text_of(drawn.width as u64, drawn.height as u64, &drawn.map);
    if random.once_in(2) {
        let rows = text.len() - drawn.map.len() - drawn.height as usize;
        for byte in &mut text[rows..] {
            *byte = match *byte {
                b'.' => random.one_of(b".G1"),
                b'@' => random.one_of(b"@OT"),
                other => other,
            };
        }
    }
    text
}

/// A text with something wrong in it, or nearly wrong.
pub fn torn_text(random: &mut Random, drawn: &Drawn) -> Vec<u8> {
    let mut text = good_text(random, drawn);
    match random.below(10) {
        0 => text.truncate(random.below(text.len() as u64 + 1) as usize),
        1 => text = other_side(random, drawn),
        2 => text = other_header(random, drawn),
        3 => text.extend(random.one_of(&[&b"\n"[..], b" ", b".", b"\r\n", b"...\n", b"\0"])),
        4 => return with_cr(text),
        _ => {
            for _ in 0..random.between(1, 2) {
                tear(random, &mut text);
            }
        }
    }
    text
}

/// One byte changed, added or taken away.
fn tear(random: &mut Random, text: &mut Vec<u8>) {
    let place = random.below(text.len() as u64 + 1) as usize;
    let byte = random.one_of(b"\n\r .@GOTSW0123456789gohtmap\0\xff\t");
    match random.below(4) {
        0 => text.insert(place, byte),
        1 if place < text.len() => drop(text.remove(place)),
        _ if place < text.len() => text[place] = byte,
        _ => text.push(byte),
    }
}

fn with_cr(text: Vec<u8>) -> Vec<u8> {
    let mut torn = Vec::new();
    for byte in text {
        if byte == b'\n' {
            torn.push(b'\r');
        }
        torn.push(byte);
    }
    torn
}

/// A side in the header that is not a decimal number from 1 to 1,024, or not the side of the rows.
fn other_side(random: &mut Random, drawn: &Drawn) -> Vec<u8> {
    let sides = [
        "0",
        "00",
        "01",
        "007",
        "",
        " 3",
        "3 ",
        "-1",
        "+2",
        "1.0",
        "0x3",
        "x",
        "9",
        "64",
        "65",
        "255",
        "256",
        "257",
        "0256",
        "300",
        "999",
        "1000",
        "1009",
        "1023",
        "1024",
        "1025",
        "1030",
        "1100",
        "2000",
        "9999",
        "01024",
        "10240",
        "1024 ",
        "65536",
        "65539",
        "4294967296",
        "4294967299",
        "18446744073709551617",
        "18446744073709551619",
        "000000000000000000000000000000000000003",
        "99999999999999999999999999999999999999999999999999",
        "340282366920938463463374607431768211459",
    ];
    let other = random.one_of(&sides);
    let (height, width) = (drawn.height.to_string(), drawn.width.to_string());
    match random.below(3) {
        0 => header(other, &width, drawn),
        1 => header(&height, other, drawn),
        _ => header(other, other, drawn),
    }
}

fn header(height: &str, width: &str, drawn: &Drawn) -> Vec<u8> {
    let mut text = format!("type octile\nheight {}\nwidth {}\nmap\n", height, width).into_bytes();
    text.extend(rows_of(drawn));
    text
}

fn rows_of(drawn: &Drawn) -> Vec<u8> {
    let text = text_of(drawn.width as u64, drawn.height as u64, &drawn.map);
    text[text.len() - drawn.map.len() - drawn.height as usize..].to_vec()
}

/// Header lines that are left out, in another order or spelled another way.
fn other_header(random: &mut Random, drawn: &Drawn) -> Vec<u8> {
    let (h, w) = (drawn.height, drawn.width);
    let headers = [
        format!("height {}\nwidth {}\nmap\n", h, w),
        format!("type octile\nwidth {}\nheight {}\nmap\n", w, h),
        format!("type octile\nheight {}\nmap\n", h),
        format!("type octile\nheight {}\nwidth {}\n", h, w),
        format!("type octile\nheight {}\nwidth {}\nmap", h, w),
        format!("type octile \nheight {}\nwidth {}\nmap\n", h, w),
        format!("type tile\nheight {}\nwidth {}\nmap\n", h, w),
        format!("Type octile\nheight {}\nwidth {}\nmap\n", h, w),
        format!("type octile\nheight  {}\nwidth {}\nmap\n", h, w),
        format!("type octile\nheight {}\nwidth\t{}\nmap\n", h, w),
        format!("type octile\nheight {}\nwidth {}\n\nmap\n", h, w),
        format!("type octile\nheight {}\nwidth {}\nmap\n\n", h, w),
        format!("\ntype octile\nheight {}\nwidth {}\nmap\n", h, w),
        "type octile\n".to_string(),
        String::new(),
    ];
    let mut text = random.one_of(&headers).into_bytes();
    if !random.once_in(6) {
        text.extend(rows_of(drawn));
    }
    text
}

/// Texts around the edges: 4,195 and 4,196 bytes, sides 64 and 65, 1,024 and 1,025.
pub fn edge_text(random: &mut Random) -> Vec<u8> {
    let whole = |height: u32, width: u32| {
        let map = vec![1; (width * height) as usize];
        text_of(width as u64, height as u64, &map)
    };
    let mut text = match random.below(8) {
        0 => vec![b'.'; random.between(4190, 4200) as usize],
        // a text with an extra line end or more, so that it is just too long
        1 => {
            let mut text = whole(64, 64);
            text.resize(random.between(4193, 4198) as usize, b'\n');
            text
        }
        2 => whole(64, 64),
        3 => whole(1, random.one_of(&[63, 64, 65, 256, 257, 1023, 1024, 1025])),
        4 => whole(random.one_of(&[63, 64, 65, 256, 257, 1023, 1024, 1025]), 1),
        5 => whole(65, random.between(1, 63) as u32),
        6 => whole(random.between(1, 63) as u32, 65),
        _ => {
            let sides = [
                (1, 1025),
                (1025, 1),
                (16, 256),
                (256, 16),
                (4, 1024),
                (1024, 3),
                (1024, 4),
                (2, 1025),
            ];
            let (height, width) = random.one_of(&sides);
            let rows = vec![b'.'; (height * (width + 1)) as usize];
            let mut text =
                format!("type octile\nheight {}\nwidth {}\nmap\n", height, width).into_bytes();
            text.extend(rows);
            for y in 1..=height as usize {
                let length = text.len();
                text[length - (y - 1) * (width as usize + 1) - 1] = b'\n';
            }
            text
        }
    };
    if random.once_in(4) {
        tear(random, &mut text);
    }
    text
}
