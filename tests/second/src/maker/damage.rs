//! Damaged lines, and lines of the right form with numbers out of range.

use crate::random::Random;

/// Damages a line. What comes out may still be good, or good with other numbers.
pub fn damage(random: &mut Random, line: &[u8]) -> Vec<u8> {
    let mut fields: Vec<Vec<u8>> = line.split(|&c| c == b'\t').map(|f| f.to_vec()).collect();
    let at = random.below(fields.len());
    // A field past the letter, if there is one.
    let number_at = if fields.len() > 1 {
        random.between(1, fields.len() - 1)
    } else {
        0
    };
    match random.below(34) {
        way @ (0..=8 | 30 | 32 | 33) => return damaged_line(random, line, way),
        way @ 9..=15 => damage_fields(random, &mut fields, at, way),
        way => fields[number_at] = damaged_number(random, &fields[number_at], way),
    }
    fields.join(&b'\t')
}

/// Bytes put in, changed or dropped somewhere in the line, or another line.
fn damaged_line(random: &mut Random, line: &[u8], way: usize) -> Vec<u8> {
    match way {
        0 => Vec::new(),
        1 => vec![b'\r'],
        2 => [line, b"\r"].concat(),
        3 => [line, b" "].concat(),
        4 => [line, b"\t"].concat(),
        5 => [&[random.pick(b" \t\r0BSR")], line].concat(),
        6 => byte_put_in(random, line),
        7 => byte_changed(random, line),
        8 => byte_dropped(random, line),
        30 => {
            let blank_for_tab = |&c: &u8| if c == b'\t' { b' ' } else { c };
            line.iter().map(blank_for_tab).collect()
        }
        32 => b"R\t1\t250\t-1000\t1000".to_vec(),
        _ => {
            let length = random.below(12);
            let any = |_| random.pick(b"RBSEXDIL019\t\t -\r");
            (0..length).map(any).collect()
        }
    }
}

fn byte_put_in(random: &mut Random, line: &[u8]) -> Vec<u8> {
    let mut out = line.to_vec();
    let i = random.below(out.len() + 1);
    let byte = random.below(256) as u8;
    // A newline would make two lines of it.
    out.insert(i, if byte == b'\n' { 0 } else { byte });
    out
}

fn byte_changed(random: &mut Random, line: &[u8]) -> Vec<u8> {
    let mut out = line.to_vec();
    if !out.is_empty() {
        let i = random.below(out.len());
        out[i] = random.pick(&[0, 11, 12, 13, 32, 43, 45, 46, 95, 127, 128, 160, 178, 255]);
    }
    out
}

fn byte_dropped(random: &mut Random, line: &[u8]) -> Vec<u8> {
    let mut out = line.to_vec();
    if !out.is_empty() {
        let i = random.below(out.len());
        out.remove(i);
    }
    out
}

/// Fields put in or dropped, or another letter in front.
fn damage_fields(random: &mut Random, fields: &mut Vec<Vec<u8>>, at: usize, way: usize) {
    match way {
        9 => drop(fields.remove(at)),
        10 => fields.insert(at, b"0".to_vec()),
        11 => fields.push(b"1".to_vec()),
        12 => fields.insert(at, Vec::new()),
        13 => fields[at] = Vec::new(),
        14 => {
            let letters = ["b", "s", "r", "X", "E", "D", "R", "BB", "I", ""];
            fields[0] = random.pick(&letters).into()
        }
        _ => fields[0] = random.pick(&["B", "S"]).into(),
    }
}

/// Another field for a number or for the letter of an operation.
fn damaged_number(random: &mut Random, field: &[u8], way: usize) -> Vec<u8> {
    match way {
        16 => [b"0", field].concat(),
        17 => [b"-", field].concat(),
        18 => [b"+", field].concat(),
        19 => b"-0".to_vec(),
        20 => b"00".to_vec(),
        21 => b"9999999".to_vec(),
        22 => b"1000000".to_vec(),
        23 => b"10000000".to_vec(),
        24 => {
            let long = random.pick(&[8usize, 9, 10, 11, 19, 20, 21, 39, 300]);
            vec![random.pick(b"0123456789"); long]
        }
        25 => b"4294967296".to_vec(),
        26 => text_of(random.pick(&[8, 9, 10, 16, 63, 64, 65, 127, 128, 255, 256, 264, 320])),
        27 => text_of(random.pick(&[0, 1, 2, 999, 1000, 1001, 1002, 1024, 65535, 65536, 65537])),
        28 => random
            .pick(&["i", "d", "l", "Q", "II", "I ", " I", "B"])
            .into(),
        29 => random
            .pick(&["I", "D", "L", "0x1", "1e1", "1.0", "1,0", "1_0"])
            .into(),
        _ => "\u{661}".into(),
    }
}

fn text_of(number: u32) -> Vec<u8> {
    number.to_string().into_bytes()
}

/// A line of the right form with numbers in and out of range, several at once.
pub fn odd_numbers(random: &mut Random) -> Vec<u8> {
    let thread = random.pick(&[
        0, 0, 1, 2, 3, 4, 5, 6, 7, 7, 8, 8, 9, 10, 255, 256, 9_999_999,
    ]);
    if random.one_in(2) {
        let key = random.pick(&[
            0, 1, 5, 31, 32, 62, 63, 64, 64, 65, 100, 255, 256, 320, 9_999_999,
        ]);
        let letter = random.pick(&["I", "D", "L", "L", "i", "X"]);
        format!("B\t{thread}\t{letter}\t{key}").into_bytes()
    } else {
        let count = random.pick(&[
            0, 0, 1, 2, 3, 10, 999, 1000, 1001, 1001, 1002, 65_536, 9_999_999,
        ]);
        format!("S\t{thread}\t{count}").into_bytes()
    }
}
