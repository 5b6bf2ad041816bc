//! Writes the lines of a listing for the tests: 40 bytes each, a word, six right-justified fields, a line feed.

pub const LINE: usize = 40;

/// First and one past the last byte of F1 to F6 within a line, counted from 0.
pub const FIELDS: [(usize, usize); 6] = [(4, 8), (8, 12), (12, 16), (16, 20), (20, 24), (24, 39)];

/// A line from its word and numbers; `None` leaves a field blank.
pub fn line(word: &str, numbers: [Option<i128>; 6]) -> [u8; LINE] {
    line_of_text(word, &numbers.map(|n| n.map_or(String::new(), |n| n.to_string())))
}

/// A line from its word and the text of its fields, each moved to the right end of its columns.
pub fn line_of_text(word: &str, fields: &[String; 6]) -> [u8; LINE] {
    let mut line = [b' '; LINE];
    line[..4].copy_from_slice(word.as_bytes());
    for (&(start, end), text) in FIELDS.iter().zip(fields) {
        assert!(text.len() <= end - start, "{text} is too wide for its field");
        line[end - text.len()..end].copy_from_slice(text.as_bytes());
    }
    line[LINE - 1] = b'\n';
    line
}

/// A listing in short notation: lines parted by `;`, a word and its fields parted by spaces, `_` for a blank
/// field, blank fields at the end left out. `SETC 0 _ _ _ _ 7; STOP` has two lines.
pub fn listing(notation: &str) -> Vec<u8> {
    let lines = notation.split(';').map(str::trim).filter(|line| !line.is_empty());
    lines.flat_map(line_of_notation).collect()
}

fn line_of_notation(notation: &str) -> [u8; LINE] {
    let mut tokens = notation.split_whitespace();
    let word = tokens.next().expect("a line has a word");
    let mut fields: [String; 6] = Default::default();
    for (field, token) in fields.iter_mut().zip(&mut tokens) {
        *field = token.replace('_', "");
    }
    assert!(tokens.next().is_none(), "more than six fields: {notation}");
    line_of_text(word, &fields)
}

#[cfg(test)]
mod tests {
    use super::*;

    #[test]
    fn fields_end_at_their_last_column() {
        let written = listing("STRP 17 4 0 _ _ -5; STOP");
        let expected = "STRP  17   4   0                     -5\nSTOP                                   \n";
        assert_eq!(String::from_utf8(written).unwrap(), expected);
    }

    #[test]
    fn numbers_and_notation_agree() {
        let numbers = [Some(2), Some(4), None, Some(255), Some(0), Some(65535)];
        assert_eq!(line("STOR", numbers).to_vec(), listing("STOR 2 4 _ 255 0 65535"));
    }
}
