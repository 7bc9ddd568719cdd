//! A case as a line, `KIND ANSWER RUST LENGTH TEXT`, in columns of fixed places. TEXT may hold any
//! byte, so LENGTH and not the newline says where it ends.
use crate::case::{Case, Column, Kind, LONGEST_TEXT};
use crate::case_file::FileCase;
use crate::figures::Figures;

/// Bytes of a line before TEXT.
const HEAD: usize = 40;

impl FileCase for Case {
    type Figures = Figures;

    fn count_in(&self, figures: &mut Figures) {
        figures.count(self);
    }

    fn line(&self) -> Vec<u8> {
        assert!(
            self.text.len() <= LONGEST_TEXT,
            "a text over {LONGEST_TEXT} bytes"
        );
        let kind = match self.kind {
            Kind::Decimal => b'd',
            Kind::Whole => b'w',
            Kind::Second => b's',
        };
        let length = format!("{:03}", self.text.len());
        let columns: [&[u8]; 5] = [
            &[kind],
            &self.answer,
            &self.rust,
            length.as_bytes(),
            &self.text,
        ];
        let mut line = columns.join(&b' ');
        line.push(b'\n');
        line
    }

    fn split(bytes: &[u8]) -> Option<(Case, &[u8])> {
        let head = bytes.get(..HEAD)?;
        let kind = match head[0] {
            b'd' => Kind::Decimal,
            b'w' => Kind::Whole,
            b's' => Kind::Second,
            _ => return None,
        };
        if [1, 18, 35, 39].iter().any(|&at| head[at] != b' ') {
            return None;
        }
        let length: usize = std::str::from_utf8(&head[36..39]).ok()?.parse().ok()?;
        let text = bytes.get(HEAD..HEAD + length)?.to_vec();
        let after = bytes[HEAD + length..].strip_prefix(b"\n")?;
        let column = |from: usize| -> Option<Column> { head[from..from + 16].try_into().ok() };
        let case = Case {
            kind,
            answer: column(2)?,
            rust: column(19)?,
            text,
        };
        Some((case, after))
    }
}

#[cfg(test)]
mod tests {
    use super::*;

    #[test]
    fn a_line_is_read_as_it_was_written() {
        let texts: [&[u8]; 5] = [b"", b"\n", b"1.5", b"1 5", b"\xff\x00"];
        for case in texts.map(Case::decimal) {
            let both = [case.line(), case.line()].concat();
            let (read, after) = Case::split(&both).unwrap();
            assert_eq!((&read, after), (&case, &case.line()[..]));
        }
        let written = Case::decimal(b"1.5").line();
        assert_eq!(written, b"d 3ff8000000000000 3ff8000000000000 003 1.5\n");
    }
}
