//! Every edit of a small sheet: of one byte, of one line or one token of it, and every cut.

/// Document 01's sample.
pub const SAMPLE: &[u8] = include_bytes!("../../../examples/sample.sheet");

/// A sheet with windows, a penalty, a distance limit, times, a break, an empty route and a negative demand.
pub const SMALL: &[u8] = b"vehicle 1
9 0 20 2 90 -
places 4
0 0 - - -
4 1 0 60 -
-2 2 5 30 -
5 0 - - 3
distances 4
0 10 12 9
10 0 5 7
12 5 0 6
9 7 6 0
times 4
0 11 12 9
11 0 4 7
12 4 0 6
9 7 6 0
break 1
10 40 5
draws 2
7
12
routes 4
1 1
0
1 2
1 3
run 1
6 30
";

/// Bytes to put between two others: digits, signs, ends of tokens and lines, and some that no sheet has.
const TELLING: &[u8] = b"01259-+. \n\r\t\0x\x80\xff";

/// Tokens to put in place of another.
const TOKENS: &[&str] = &[
    "",
    "-",
    "--",
    "0",
    "00",
    "-0",
    "1",
    "-1",
    "+1",
    "1-",
    "2",
    "3",
    "4",
    "5",
    "63",
    "64",
    "65",
    "0065",
    "1024",
    "1025",
    "65535",
    "65536",
    "65537",
    "1000000",
    "1000001",
    "-1000000",
    "-1000001",
    "999999999",
    "-999999999",
    "0999999999",
    "1000000000",
    "-1000000000",
    "000000001",
    "0000000001",
    "18446744073709551616",
    "4294967297",
    "1.0",
    "x",
    "1x",
    "run",
];

/// What is put before and after a token.
const AROUND: &[&str] = &[" ", "\t", "\r", "\n", "\0", "-", "0"];

/// Calls `ask` with every edit of a sheet.
pub fn each(sheet: &[u8], ask: &mut dyn FnMut(&[u8])) {
    each_byte(sheet, ask);
    each_cut(sheet, ask);
    each_line(sheet, ask);
    each_token(sheet, ask);
}

fn each_byte(sheet: &[u8], ask: &mut dyn FnMut(&[u8])) {
    let mut text = sheet.to_vec();
    for at in 0..sheet.len() {
        for byte in 0..=255 {
            if byte != sheet[at] {
                text[at] = byte;
                ask(&text);
            }
        }
        text[at] = sheet[at];
        ask(&[&sheet[..at], &sheet[at + 1..]].concat());
    }
    for at in 0..=sheet.len() {
        for &byte in TELLING {
            ask(&[&sheet[..at], &[byte], &sheet[at..]].concat());
        }
    }
}

/// The first bytes of a sheet, and its last.
fn each_cut(sheet: &[u8], ask: &mut dyn FnMut(&[u8])) {
    for at in 0..=sheet.len() {
        ask(&sheet[..at]);
        ask(&sheet[at..]);
    }
}

fn each_line(sheet: &[u8], ask: &mut dyn FnMut(&[u8])) {
    let lines: Vec<&[u8]> = sheet.split_inclusive(|&byte| byte == b'\n').collect();
    for at in 0..lines.len() {
        let mut asked = |line: &[&[u8]]| ask(&[&lines[..at], line, &lines[at + 1..]].concat().concat());
        let line = lines[at];
        asked(&[]);
        asked(&[line, line]);
        // without its end
        asked(&[&line[..line.len() - 1]]);
        for other in &lines {
            asked(&[other]);
        }
        if at + 1 < lines.len() {
            let mut exchanged = lines.clone();
            exchanged.swap(at, at + 1);
            ask(&exchanged.concat());
        }
    }
}

fn each_token(sheet: &[u8], ask: &mut dyn FnMut(&[u8])) {
    let ends = |byte: u8| byte == b' ' || byte == b'\n';
    let mut from = 0;
    while from < sheet.len() {
        let to = from + sheet[from..].iter().position(|&byte| ends(byte)).unwrap();
        let (before, token, behind) = (&sheet[..from], &sheet[from..to], &sheet[to..]);
        for other in TOKENS {
            ask(&[before, other.as_bytes(), behind].concat());
        }
        for more in AROUND {
            ask(&[before, more.as_bytes(), token, behind].concat());
            ask(&[before, token, more.as_bytes(), behind].concat());
        }
        // with the byte that ends it: the token left out, and twice
        let end = &sheet[to..to + 1];
        ask(&[before, &behind[1..]].concat());
        ask(&[before, token, end, token, behind].concat());
        ask(&[before, token, b" ", token, behind].concat());
        from = to + 1;
    }
}
