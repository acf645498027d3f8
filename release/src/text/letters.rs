//! Characters: which of them a reader of a screen or a page does not see, and how they are written then.

/// Characters that take no room or turn the direction of what stands beside them, and others that no screen shows as what they are:
/// first and last of a stretch, in their order.
const UNSEEN: [(char, char); 18] = [
    ('\u{ad}', '\u{ad}'),
    ('\u{34f}', '\u{34f}'),
    ('\u{61c}', '\u{61c}'),
    ('\u{115f}', '\u{1160}'),
    ('\u{17b4}', '\u{17b5}'),
    ('\u{180b}', '\u{180f}'),
    ('\u{200b}', '\u{200f}'),
    ('\u{202a}', '\u{202e}'),
    ('\u{2060}', '\u{206f}'),
    ('\u{3164}', '\u{3164}'),
    ('\u{fdd0}', '\u{fdef}'),
    ('\u{fe00}', '\u{fe0f}'),
    ('\u{feff}', '\u{feff}'),
    ('\u{ffa0}', '\u{ffa0}'),
    ('\u{fff0}', '\u{fffb}'),
    ('\u{fffe}', '\u{ffff}'),
    ('\u{1d173}', '\u{1d17a}'),
    ('\u{e0000}', '\u{e0fff}'),
];

/// Whether a character is written by its number, since it could not be seen or told from a blank: control characters, blanks other
/// than the space, and those above.
pub fn unseen(letter: char) -> bool {
    // Most characters of most texts, which are told at once.
    if matches!(letter, ' '..='~' | '\u{a1}'..='\u{ac}' | '\u{ae}'..='\u{34e}' | '\u{3165}'..='\u{fdcf}') {
        return false;
    }
    let before = UNSEEN.partition_point(|(_, last)| *last < letter);
    letter.is_control()
        || letter.is_whitespace()
        || u32::from(letter) & 0xFFFE == 0xFFFE
        || UNSEEN.get(before).is_some_and(|(first, _)| *first <= letter)
}

/// Whether a pool may hold the character.
pub fn may_stand(letter: char) -> bool {
    !letter.is_ascii_control()
}

/// A character by its number, as the text form has it inside quotes.
pub fn escaped(letter: char) -> String {
    format!("\\u{{{:X}}}", u32::from(letter))
}

/// A text for a line of output: as it is, but for characters that could not be seen.
pub fn shown(text: &[u8]) -> String {
    let text = String::from_utf8_lossy(text);
    if !text.chars().any(unseen) {
        return text.into_owned();
    }
    text.chars().map(|letter| if unseen(letter) { escaped(letter) } else { letter.to_string() }).collect()
}

/// Lines of output, each shown.
pub fn shown_lines(lines: &[u8]) -> String {
    let lines = lines.split_inclusive(|byte| *byte == b'\n');
    let line = |line: &[u8]| match line.strip_suffix(b"\n") {
        Some(line) => shown(line) + "\n",
        None => shown(line),
    };
    lines.map(line).collect()
}

/// How many characters a text has, where a mark that stands over a letter is no character of its own.
pub fn width(text: &str) -> usize {
    text.chars().filter(|letter| !('\u{300}'..='\u{36f}').contains(letter)).count()
}

#[cfg(test)]
mod tests {
    use super::*;

    #[test]
    fn what_is_not_seen() {
        for letter in "\u{80}\u{85}\u{9f}\u{a0}\u{ad}\u{200b}\u{200e}\u{200f}\u{202e}\u{2066}\u{2069}\u{feff}\u{2028}\u{10ffff}".chars()
        {
            assert!(unseen(letter), "{:X}", u32::from(letter));
        }
        for letter in " a~\u{a1}\u{b5}\u{c5}\u{212b}\u{30a}\u{3bc}\u{7126}\u{1f52c}\u{e000}".chars() {
            assert!(!unseen(letter), "{:X}", u32::from(letter));
        }
    }

    /// Every character is told by the table and the rules alone.
    #[test]
    fn every_character() {
        for letter in '\0'..=char::MAX {
            let rules = letter.is_control() || (letter.is_whitespace() && letter != ' ');
            let among = UNSEEN.iter().any(|(first, last)| (*first..=*last).contains(&letter));
            let rules = rules || u32::from(letter) & 0xFFFE == 0xFFFE || among;
            assert_eq!(unseen(letter), rules, "{:X}", u32::from(letter));
        }
    }

    #[test]
    fn shown_as_it_is_or_by_number() {
        assert_eq!(shown("µm Å 焦点".as_bytes()), "µm Å 焦点");
        assert_eq!(shown("a\u{202e}b\u{9f}".as_bytes()), "a\\u{202E}b\\u{9F}");
        assert_eq!(shown_lines("µ\n\u{feff}\nx".as_bytes()), "µ\n\\u{FEFF}\nx");
        assert_eq!(shown(b"a\xff"), "a\u{fffd}");
    }

    #[test]
    fn widths() {
        assert_eq!(["", "µm", "\u{c5}", "A\u{30a}", "焦点"].map(width), [0, 2, 1, 1, 2]);
    }
}
