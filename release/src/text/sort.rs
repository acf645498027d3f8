//! Whether bytes are those of a text or of a record, told by the bytes alone.
//!
//! Text is UTF-8 without control characters other than tab, line feed and carriage return. A record begins with its stream's
//! length in four bytes, and a length within the limit has a zero byte among them, which is no text: so bytes that begin as a
//! record does are never taken as a text, wherever they are cut off.

/// How many bytes a record's first length has. Fewer are a record that is cut there, since no text is so short.
pub const LEAST: usize = 4;

/// How far bytes are text, where those before `from` are: up to a sequence that they end inside, or to their end. Otherwise the
/// place of the first byte that is none of a text.
pub fn text_up_to(bytes: &[u8], from: usize) -> Result<usize, usize> {
    let rest = &bytes[from..];
    let (valid, ill_formed) = match std::str::from_utf8(rest) {
        Ok(_) => (rest.len(), false),
        Err(error) => (error.valid_up_to(), error.error_len().is_some()),
    };
    let control = |byte: &u8| byte.is_ascii_control() && !b"\t\n\r".contains(byte);
    match rest[..valid].iter().position(control) {
        Some(at) => Err(from + at),
        None if ill_formed => Err(from + valid),
        None => Ok(from + valid),
    }
}

/// Whether these bytes, which are all, are taken as a text; if not, the first that is none of a text, where there is one.
pub fn is_text(bytes: &[u8]) -> Result<(), Option<usize>> {
    match text_up_to(bytes, 0) {
        Ok(end) if end < bytes.len() => Err(Some(end)),
        Ok(end) if end < LEAST => Err(None),
        Ok(_) => Ok(()),
        Err(at) => Err(Some(at)),
    }
}

/// The line and the column of a place, counted from 1; all before it is UTF-8.
pub fn line_and_column(bytes: &[u8], at: usize) -> (usize, usize) {
    let before = &bytes[..at];
    let line = before.iter().rposition(|byte| *byte == b'\n').map_or(0, |end| end + 1);
    let ended = before.iter().filter(|byte| **byte == b'\n').count();
    (ended + 1, String::from_utf8_lossy(&before[line..]).chars().count() + 1)
}

#[cfg(test)]
mod tests {
    use super::*;

    #[test]
    fn what_is_text() {
        for text in ["head", "head\r\n\tend\n", "\u{feff}head", "µm Å 焦点 \u{80}\u{200b}"] {
            assert_eq!(is_text(text.as_bytes()), Ok(()), "{text}");
        }
        let not: &[(&[u8], Option<usize>)] = &[
            (b"", None),
            (b"end", None),
            (b"\0\0\0\0", Some(0)),
            (b"head\0", Some(4)),
            (b"head\x0b", Some(4)),
            (b"head\x7f", Some(4)),
            (b"head\x1b[0m", Some(4)),
            (b"\xb5m head", Some(0)),
            (b"head \xc3", Some(5)),
            (b"head \xed\xa0\x80", Some(5)),
            (b"head\xff\0", Some(4)),
        ];
        for (bytes, odd) in not {
            assert_eq!(is_text(bytes), Err(*odd), "{bytes:02X?}");
        }
    }

    /// In pieces of any length it is told alike.
    #[test]
    fn in_pieces() {
        let text = "head 焦点 µ\u{1f52c}\n".as_bytes();
        for piece in 1..text.len() {
            let mut clean = 0;
            for end in (0..=text.len()).step_by(piece).chain([text.len()]) {
                clean = text_up_to(&text[..end], clean).expect("text");
            }
            assert_eq!(clean, text.len());
        }
    }

    #[test]
    fn places() {
        assert_eq!(line_and_column(b"head\nab\0", 7), (2, 3));
        assert_eq!(line_and_column("µ\0".as_bytes(), 2), (1, 2));
        assert_eq!(line_and_column(b"\n\n\0", 2), (3, 1));
    }

    /// A length within a part's limit has a byte that is none of a text.
    #[test]
    fn no_length_within_the_limit_is_text() {
        for length in 0..=u32::try_from(crate::record::parts::STREAM_LIMIT).expect("a limit") {
            assert!(matches!(text_up_to(&length.to_le_bytes(), 0), Err(at) if at < LEAST), "{length}");
        }
    }
}
