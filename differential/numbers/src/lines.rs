//! Lines and fields of a text, as docs/RULES.md has them, over bytes.

/// What stands before each LF without one CR before it; what follows the last LF, where there is
/// something, is a line as it stands.
pub fn lines(text: &[u8]) -> impl Iterator<Item = &[u8]> {
    text.split_inclusive(|&byte| byte == b'\n')
        .map(|line| match line {
            [rest @ .., b'\r', b'\n'] | [rest @ .., b'\n'] => rest,
            _ => line,
        })
}

pub fn fields(line: &[u8]) -> Vec<&[u8]> {
    line.split(|&byte| byte == b',').collect()
}

/// Without the blanks at both ends: the bytes 9 to 13 and 32.
pub fn trimmed(text: &[u8]) -> &[u8] {
    let is_blank = |byte: &u8| matches!(byte, 9..=13 | 32);
    let Some(first) = text.iter().position(|byte| !is_blank(byte)) else {
        return &[];
    };
    let last = text.iter().rposition(|byte| !is_blank(byte));
    &text[first..=last.unwrap_or(first)]
}

#[cfg(test)]
mod tests {
    use super::*;

    #[test]
    fn lines_end_at_lf_with_or_without_one_cr() {
        let of = |text: &'static [u8]| lines(text).collect::<Vec<_>>();
        assert_eq!(of(b"a\r\nb\n\nc\r"), [&b"a"[..], b"b", b"", b"c\r"]);
        assert_eq!(of(b"\r\r\n"), [b"\r"]);
        assert_eq!(of(b"").len(), 0);
    }

    #[test]
    fn blanks_are_trimmed_at_both_ends() {
        assert_eq!(trimmed(b" \t\n\x0b\x0c\r1 2\r "), b"1 2");
        assert_eq!(trimmed(b" \t"), b"");
        assert_eq!(trimmed(b"\x081\x0e"), b"\x081\x0e");
        assert_eq!(trimmed(b"\x1c1\x1f"), b"\x1c1\x1f");
    }
}
