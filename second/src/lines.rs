//! Lines: the bytes before the end mark, cut at each CR LF, and their kinds.

/// Ends a file; what follows it is not read (000, 1.1).
pub const END_MARK: u8 = 0x1A;

/// The two characters before a field's colon.
pub type Name = [u8; 2];

#[derive(Clone, Copy, Debug, PartialEq, Eq)]
pub enum Kind {
    Heading,
    Field(Name),
    Continuation,
    /// Of no kind: breaks rule 2 wherever it stands.
    Stray,
}

#[derive(Clone, Copy, Debug)]
pub struct Line<'a> {
    pub text: &'a [u8],
    pub kind: Kind,
    /// A CR LF follows; only the last line can be without.
    pub ended: bool,
    /// Where its first byte stands in the file; of an empty line, its CR.
    pub offset: usize,
}

impl<'a> Line<'a> {
    fn new(text: &'a [u8], ended: bool, offset: usize) -> Self {
        Line { text, kind: kind(text), ended, offset }
    }

    /// Continuations can belong to it.
    pub fn is_owner(&self) -> bool {
        matches!(self.kind, Kind::Heading | Kind::Field(_))
    }
}

/// All lines of the bytes before the end mark. An empty rest is no line.
pub fn cut(text: &[u8]) -> Vec<Line<'_>> {
    let mut lines = Vec::new();
    let mut rest = text;
    while let Some(end) = line_end(rest) {
        lines.push(Line::new(&rest[..end], true, text.len() - rest.len()));
        rest = &rest[end + 2..];
    }
    if !rest.is_empty() {
        lines.push(Line::new(rest, false, text.len() - rest.len()));
    }
    lines
}

/// Where the first CR LF stands. A lone CR or LF cuts nothing (reading 7).
fn line_end(text: &[u8]) -> Option<usize> {
    let mut from = 0;
    loop {
        let feed = from + text[from..].iter().position(|&byte| byte == b'\n')?;
        if feed > 0 && text[feed - 1] == b'\r' {
            return Some(feed - 1);
        }
        from = feed + 1;
    }
}

pub fn kind(text: &[u8]) -> Kind {
    match text {
        [b'H', b'D', b':', ..] => Kind::Heading,
        [b' ', b' ', b' ', ..] => Kind::Continuation,
        [a, b, b':', ..] if names(*a) && names(*b) => Kind::Field([*a, *b]),
        _ => Kind::Stray,
    }
}

fn names(byte: u8) -> bool {
    byte.is_ascii_uppercase() || byte.is_ascii_digit()
}

#[cfg(test)]
mod tests {
    use super::*;

    fn texts(file: &[u8]) -> Vec<(&[u8], bool)> {
        cut(file).iter().map(|line| (line.text, line.ended)).collect()
    }

    #[test]
    fn only_cr_lf_cuts() {
        assert_eq!(texts(b""), []);
        assert_eq!(texts(b"\r\n"), [(&b""[..], true)]);
        assert_eq!(texts(b"a\r\n\r\nb"), [(&b"a"[..], true), (b"", true), (b"b", false)]);
        assert_eq!(texts(b"a\nb\rc"), [(&b"a\nb\rc"[..], false)]);
        assert_eq!(texts(b"a\r\r\n\n"), [(&b"a\r"[..], true), (b"\n", false)]);
        assert_eq!(texts(b"\n\r\n\r"), [(&b"\n"[..], true), (b"\r", false)]);
    }

    #[test]
    fn offsets() {
        let of = |file| cut(file).iter().map(|line| line.offset).collect::<Vec<_>>();
        assert_eq!(of(b"a\r\n\r\nb\r\n"), [0, 3, 5]);
        assert_eq!(of(b"\r\n\r\nx"), [0, 2, 4]);
        assert_eq!(of(b"\r\r\n\n\r\n\r"), [0, 3, 6]);
    }

    #[test]
    fn kinds() {
        assert_eq!(kind(b"HD:"), Kind::Heading);
        assert_eq!(kind(b"HD"), Kind::Stray);
        assert_eq!(kind(b"   "), Kind::Continuation);
        assert_eq!(kind(b"  "), Kind::Stray);
        assert_eq!(kind(b"    HD:"), Kind::Continuation);
        assert_eq!(kind(b"00:"), Kind::Field(*b"00"));
        assert_eq!(kind(b"9Z:x"), Kind::Field(*b"9Z"));
        for stray in ["hd:", "kc:1", "", "HD;", "A::", "A :", "@A:", "[A:", "/0:", "K\x1bC"] {
            assert_eq!(kind(stray.as_bytes()), Kind::Stray, "{stray:?}");
        }
    }
}
