//! A trace bank in text, as docs/RULES.md has it, read by hand over bytes.
use crate::banks::lent::Room;
use numbers::lines::{fields, lines};
use numbers::reading;
use numbers::refusal::Refusal;

const MOST_COLUMNS: usize = 128;
const MOST_DEPTH: usize = 64;
const MOST_ROUNDS: usize = 65_536;

/// What an accepted text holds, floats by their bits.
#[derive(Debug, PartialEq, Eq)]
pub struct Bank {
    pub depth: u32,
    pub commits: Vec<u32>,
    /// The signals of the rounds, one after the other.
    pub signals: Vec<u64>,
    pub curve: Vec<u64>,
}

/// How a header splits its rows.
struct Header {
    columns: usize,
    depth: usize,
}

/// The bank of a text, or the first refusal in the rules' order.
pub fn read(text: &[u8], room: Room) -> Result<Bank, Refusal<'_>> {
    if !text.is_ascii() {
        return Err(Refusal::new(1, 0));
    }
    let mut lines = lines(text);
    let first = lines.next().ok_or(Refusal::new(2, 0))?;
    let header = header(first, room).map_err(|number| Refusal::new(number, 1))?;
    let mut bank = Bank {
        depth: header.depth as u32,
        commits: Vec::new(),
        signals: Vec::new(),
        curve: Vec::new(),
    };
    for (line, row) in lines.zip(2..) {
        read_row(line, &header, room, &mut bank).map_err(|(number, field)| Refusal {
            number,
            row,
            field,
        })?;
    }
    if bank.commits.is_empty() {
        return Err(Refusal::new(10, 0));
    }
    bank.curve = (0..=bank.depth).map(|depth| mean(&bank, depth)).collect();
    Ok(bank)
}

fn header(line: &[u8], room: Room) -> Result<Header, u8> {
    let names = fields(line);
    let depth = names.iter().filter(|name| name.starts_with(b"a")).count();
    if names[0] != b"commits" || depth == 0 {
        return Err(3);
    }
    if names.len() > MOST_COLUMNS || depth > MOST_DEPTH {
        return Err(11);
    }
    if room.curve < depth + 1 {
        return Err(16);
    }
    Ok(Header {
        columns: names.len(),
        depth,
    })
}

/// Adds the round of a row to the bank; else the refusal's number, and the number in text where
/// that is at fault.
fn read_row<'a>(
    line: &'a [u8],
    header: &Header,
    room: Room,
    bank: &mut Bank,
) -> Result<(), (u8, &'a [u8])> {
    let fields = fields(line);
    if fields.len() != header.columns {
        return Err((4, &[]));
    }
    let commits = reading::whole(fields[0]).map_err(|number| (number, fields[0]))?;
    for field in &fields[header.columns - header.depth..] {
        let bits = reading::decimal(field).map_err(|number| (number, *field))?;
        bank.signals.push(bits);
    }
    if bank.commits.len() >= MOST_ROUNDS {
        return Err((11, &[]));
    }
    bank.commits.push(commits as u32);
    if bank.commits.len() > room.commits || bank.signals.len() > room.signals {
        return Err((16, &[]));
    }
    Ok(())
}

/// The bits of the mean over the rounds of the smaller of commits and depth: a sum of whole
/// numbers, divided once.
fn mean(bank: &Bank, depth: u32) -> u64 {
    let capped = bank.commits.iter().map(|&n| u64::from(n.min(depth)));
    let sum: u64 = capped.sum();
    (sum as f64 / bank.commits.len() as f64).to_bits()
}

#[cfg(test)]
mod tests {
    use super::*;
    use crate::banks::lent::LARGEST;

    fn refusal(text: &[u8]) -> (u8, u64) {
        let refused = read(text, LARGEST).unwrap_err();
        (refused.number, refused.row)
    }

    #[test]
    fn a_bank_is_its_last_columns_and_a_curve() {
        let text = b"commits,x,a0,a1\r\n3,,0.5,-0\n0,\x7f,1,2";
        let bank = read(text, Room::exactly(2, 2)).unwrap();
        let bits = |floats: &[f64]| -> Vec<u64> { floats.iter().map(|x| x.to_bits()).collect() };
        assert_eq!((bank.depth, bank.commits), (2, vec![3, 0]));
        assert_eq!(bank.signals, bits(&[0.5, -0.0, 1.0, 2.0]));
        assert_eq!(bank.curve, bits(&[0.0, 0.5, 1.0]));
        let bank = read(b"commits,a0,x\n1,2,3\n", LARGEST).unwrap();
        assert_eq!(bank.signals, bits(&[3.0]));
    }

    #[test]
    fn every_refusal_with_its_row() {
        assert_eq!(refusal(b"commits,a\n1,1,\xc3\xa9\n"), (1, 0));
        assert_eq!(refusal(b""), (2, 0));
        assert_eq!(refusal(b"\n"), (3, 1));
        assert_eq!(refusal(b"commits,b\n"), (3, 1));
        assert_eq!(refusal(b"commits,a\n1,1\n\n"), (4, 3));
        assert_eq!(refusal(b"commits,a\n-1,x\n"), (5, 2));
        assert_eq!(refusal(b"commits,a,b,a\n1,x,1234567890123456,.\n"), (7, 2));
        assert_eq!(refusal(b"commits,a\n1,1e5\n"), (6, 2));
        assert_eq!(refusal(b"commits,a"), (10, 0));
        let header = |depth: usize| [&b"commits"[..], &b",a".repeat(depth)].concat();
        assert_eq!(refusal(&header(64)), (10, 0));
        assert_eq!(refusal(&header(65)), (11, 1));
        assert_eq!(refusal(b"commit,a"), (3, 1));
    }

    #[test]
    fn room_is_judged_behind_the_numbers_of_its_row() {
        let text = b"commits,a,a\n1,2,3\n4,5,6\n";
        let of = |commits, signals, curve| {
            let room = Room {
                commits,
                signals,
                curve,
            };
            read(text, room).map(|_| ()).map_err(|r| (r.number, r.row))
        };
        assert_eq!(of(2, 4, 3), Ok(()));
        assert_eq!(of(2, 4, 2), Err((16, 1)));
        assert_eq!(of(2, 3, 3), Err((16, 3)));
        assert_eq!(of(1, 4, 3), Err((16, 3)));
        assert_eq!(of(0, 4, 3), Err((16, 2)));
        let faulty = read(b"commits,a\nx,1\n", Room::exactly(0, 1)).unwrap_err();
        assert_eq!(faulty.number, 5);
    }

    /// A case lends too little room to meet this limit; here it is met.
    #[test]
    fn more_than_65536_rounds_are_refused_behind_their_numbers() {
        let room = Room::exactly(70_000, 1);
        let text = |rounds: usize| [&b"commits,a\n"[..], &b"1,1\n".repeat(rounds)].concat();
        assert_eq!(read(&text(65_536), room).unwrap().commits.len(), 65_536);
        let text = text(65_537);
        let over = read(&text, room).unwrap_err();
        assert_eq!((over.number, over.row), (11, 65_538));
    }
}
