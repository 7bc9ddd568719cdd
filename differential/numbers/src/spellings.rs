//! Texts that stand at the edges of what a number may look like, and damaged copies of texts.
use crate::case::LONGEST_TEXT;
use crate::dice::Dice;

/// Signs and points where they do or do not belong.
const SIGNS_AND_POINTS: &[&str] = &[
    "", ".", "+", "-", "+.", "-.", "..", "+-", "-+", "++", "--", "++1", "+-1", "-+1", "--1", "++0",
    "--0", "+1", "-1", "1+", "1-", "1+1", "1-1", "1.+1", "1.-1", ".+1", "+.+1", "1.", ".1", "+1.",
    "-1.", "+.1", "-.1", "1..", "..1", "1..1", "1.2.3", ".1.", "1.1.", "0.0.0",
];

/// Blanks, line ends and commas.
const BLANKS_AND_COMMAS: &[&str] = &[
    "+ 1", "- 1", " ", " 1", "1 ", "1 1", "\t1", "1\t", "1\n", "\n1", "1\r", "1\r\n", "\r", "\n",
    ",", "1,", ",1", "1,5", "1,000", "1, 2", ". 5", "5 .", "\x0b1", "\x0c1", "1\0",
];

/// Zeros, and minus zero, in their spellings.
const ZEROS: &[&str] = &[
    "0", "00", "000", "+0", "-0", "+00", "-00", "0.", ".0", "0.0", "-0.", "-.0", "-0.0", "+.0",
    "+0.0", "-00.00", "-.000", "-0000.", "0.00", "00.00",
];

/// Exponents, whole and broken.
const EXPONENTS: &[&str] = &[
    "1e5", "1E5", "1e-5", "1E-5", "1e+5", ".5e1", "5.e1", "-1e1", "+1e1", "1e0", "0e0", "-0e0",
    "1e400", "1e-400", "5e-324", "1e22", "1e23", "1.5e300", "9e00001", "1e", "1e+", "e5", "e",
    ".e5", "1e5.", "1e5.0", "1e1e1", "1ee5",
];

/// Infinity and NaN as other readers take them, and words that only begin like them.
const WORDS: &[&str] = &[
    "inf", "Inf", "INF", "iNf", "+inf", "-inf", "infinity", "Infinity", "INFINITY", "nan", "NaN",
    "NAN", "+nan", "-nan", "-NaN", "infin", "infinit", "inf.", "in", "i", "na", "nan0", "nan(1)",
    "snan", "1.#INF", "one", "null", "true",
];

/// The longest words, behind a sign.
const SIGNED_WORDS: &[&str] = &["+infinity", "-Infinity", "-INFINITY", "--infinity"];

/// Other bases, separators and suffixes.
const OTHER_FORMS: &[&str] = &[
    "0x10", "0X1p3", "0b1", "0o7", "1_000", "_1", "1_", "1f", "1.0f", "1.5f64", "1u32", "1d", "1L",
    "1%", "$1", "1/2", "-----7",
];

/// Digits, signs and blanks of other scripts.
const OTHER_SCRIPTS: &[&str] = &[
    "\u{661}", // Arabic-Indic digits
    "\u{663}.\u{665}",
    "\u{ff11}", // fullwidth digits
    "1\u{ff15}",
    "\u{2212}1", // the minus sign that is no hyphen
    "\u{bd}",    // one half
    "\u{b2}",    // a raised two
    "\u{221e}",  // infinity
    "\u{feff}1", // a byte order mark
    "\u{a0}1",   // a blank that does not break
];

const LISTS: [&[&str]; 8] = [
    SIGNS_AND_POINTS,
    BLANKS_AND_COMMAS,
    ZEROS,
    EXPONENTS,
    WORDS,
    SIGNED_WORDS,
    OTHER_FORMS,
    OTHER_SCRIPTS,
];

/// All of them.
pub fn edges() -> Vec<Vec<u8>> {
    let all = LISTS.concat();
    all.iter().map(|text| text.as_bytes().to_vec()).collect()
}

/// Every byte alone, and every byte between two digits.
pub fn every_byte() -> Vec<Vec<u8>> {
    (0..=255u8)
        .flat_map(|byte| [vec![byte], vec![b'1', byte, b'5']])
        .collect()
}

/// Bytes that a damaged number may gain: those that mean something to a reader, and neighbours.
const TELLING_BYTES: &[u8] = b"0159+-.,/:;eE xXinfaNy_\r\n\t\0\x80\xff";

/// A copy with one byte changed, removed or doubled; the longest text gains none.
pub fn damaged(text: &[u8], dice: &mut Dice) -> Vec<u8> {
    let mut copy = text.to_vec();
    if copy.is_empty() {
        return vec![dice.pick(TELLING_BYTES)];
    }
    let at = dice.between(0, copy.len() - 1);
    match dice.below(3) {
        0 => copy[at] = dice.pick(TELLING_BYTES),
        1 if copy.len() < LONGEST_TEXT => copy.insert(at, copy[at]),
        _ => drop(copy.remove(at)),
    }
    copy
}

/// Up to 12 telling bytes, or any number of any bytes.
pub fn noise(dice: &mut Dice) -> Vec<u8> {
    if dice.once_in(8) {
        let length = dice.between(0, LONGEST_TEXT);
        return (0..length).map(|_| dice.bits() as u8).collect();
    }
    let length = dice.between(0, 12);
    (0..length).map(|_| dice.pick(TELLING_BYTES)).collect()
}

/// One of the edges, its letters' case thrown.
pub fn edge(dice: &mut Dice) -> Vec<u8> {
    let list = dice.pick(&LISTS);
    let mut text = dice.pick(list).as_bytes().to_vec();
    for byte in &mut text {
        if dice.once_in(2) {
            *byte = byte.to_ascii_uppercase();
        }
    }
    text
}
