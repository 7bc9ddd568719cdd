//! Bytes, lines and fields of a text, by their places.
use numbers::lines::{fields, lines};

/// Where the byte first stands: the length where it stands nowhere.
pub fn find(text: &[u8], byte: u8) -> usize {
    let before = text.iter().take_while(|&&other| other != byte);
    before.count()
}

pub fn count(text: &[u8], byte: u8) -> usize {
    text.iter().filter(|&&other| other == byte).count()
}

/// Where the first line stops, and where what follows it starts.
pub fn first_line(text: &[u8]) -> (usize, usize) {
    let stop = lines(text).next().map_or(0, <[u8]>::len);
    let feed = find(text, b'\n');
    (stop, text.len().min(feed + 1))
}

/// The field at a place, an empty one where there are fewer.
pub fn field(line: &[u8], place: usize) -> &[u8] {
    fields(line).get(place).copied().unwrap_or(&[])
}

/// What stands at a place of a text, and where what follows it starts.
#[derive(Clone, Copy, Debug, PartialEq, Eq)]
pub struct Span {
    pub found: bool,
    pub start: usize,
    pub stop: usize,
    pub next: usize,
}

impl Span {
    fn none(at: usize) -> Span {
        Span {
            found: false,
            start: at,
            stop: at,
            next: at,
        }
    }

    /// The number of it that is asked for: 0 the start, 1 the stop, any other the next.
    pub fn part(self, part: u64) -> u64 {
        let number = match part {
            0 => self.start,
            1 => self.stop,
            _ => self.next,
        };
        number as u64
    }
}

/// The line that starts at a place; none at the text's end.
pub fn line_at(text: &[u8], at: usize) -> Span {
    if at >= text.len() {
        return Span::none(at);
    }
    let (stop, next) = first_line(&text[at..]);
    Span {
        found: true,
        start: at,
        stop: at + stop,
        next: at + next,
    }
}

/// The field that starts at a place of a line that stops at `stop`; none past that, and none where
/// the text is shorter.
pub fn field_at(text: &[u8], at: usize, stop: usize) -> Span {
    if at > stop || stop > text.len() {
        return Span::none(at);
    }
    let comma = at + find(&text[at..stop], b',');
    Span {
        found: true,
        start: at,
        stop: comma,
        next: comma + 1,
    }
}

/// The line behind the first one.
pub fn second_line(text: &[u8]) -> Span {
    line_at(text, line_at(text, 0).next)
}

#[cfg(test)]
mod tests {
    use super::*;

    #[test]
    fn a_first_line_ends_before_one_return() {
        assert_eq!(first_line(b"a\r\nb"), (1, 3));
        assert_eq!(first_line(b"a\r"), (2, 2));
        assert_eq!(first_line(b"\r\r\n"), (1, 3));
        assert_eq!(first_line(b""), (0, 0));
    }

    #[test]
    fn a_field_is_found_up_to_the_end_and_none_past_it() {
        let found = |at, stop| field_at(b"a,b", at, stop).found;
        assert!(found(0, 3) && found(3, 3) && found(2, 2));
        assert!(!found(4, 3) && !found(0, 4) && !found(3, 2));
        assert_eq!(field_at(b"a,b", 2, 3).next, 4);
        assert_eq!(second_line(b"a\n").part(2), 2);
    }
}
