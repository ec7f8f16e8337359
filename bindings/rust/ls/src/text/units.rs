//! The UTF-16 units of a text, which is kept in UTF-8.

/// The distance in bytes between two places before which the units are known.
const STEP: usize = 64;

/// How many UTF-16 units come before each multiple of `STEP`, or nothing for a text in ASCII, whose units are its bytes.
#[derive(Clone, Debug)]
pub struct Units {
    before: Vec<usize>,
}

/// Returns how many UTF-16 units a part of a text has, given as its bytes: one for each character, and another for each of four bytes. Both count
/// where the character begins.
pub fn count(bytes: &[u8]) -> usize {
    let units = |byte: &u8| u8::from(*byte as i8 >= -64) + u8::from(*byte >= 0xf0);
    let part = |part: &[u8]| usize::from(part.iter().map(units).sum::<u8>());
    bytes.chunks(STEP).map(part).sum()
}

/// Returns the largest offset in a text that has at most so many units before it and is not inside a character.
pub fn offset_of(text: &str, units: usize) -> usize {
    let (mut offset, mut left) = (0, units);
    for part in text.as_bytes().chunks(STEP) {
        let count = count(part);
        if count > left {
            break;
        }
        left -= count;
        offset += part.len();
    }
    // The unit of a character counts where it begins, so one that goes on here is before the offset.
    while !text.is_char_boundary(offset) {
        offset += 1;
    }
    for c in text[offset..].chars() {
        if c.len_utf16() > left {
            break;
        }
        left -= c.len_utf16();
        offset += c.len_utf8();
    }
    offset
}

impl Units {
    /// Counts the units of a text.
    pub fn new(text: &str) -> Units {
        let mut before = Vec::new();
        if !text.is_ascii() {
            let mut all = 0;
            for part in text.as_bytes().chunks(STEP) {
                before.push(all);
                all += count(part);
            }
            before.push(all);
        }
        Units { before }
    }

    /// Returns whether the text is in ASCII.
    pub fn is_ascii(&self) -> bool {
        self.before.is_empty()
    }

    /// Returns how many units the bytes of the text have in a range that does not begin or end inside a character.
    pub fn between(&self, bytes: &[u8], start: usize, end: usize) -> usize {
        if self.is_ascii() {
            end - start
        } else if end - start <= STEP {
            count(&bytes[start..end])
        } else {
            self.up_to(bytes, end) - self.up_to(bytes, start)
        }
    }

    // The units before an offset of a text that is not in ASCII.
    fn up_to(&self, bytes: &[u8], offset: usize) -> usize {
        let step = offset / STEP;
        self.before[step] + count(&bytes[step * STEP..offset])
    }
}

#[cfg(test)]
mod tests {
    use super::*;

    fn units_of(text: &str) -> usize {
        text.encode_utf16().count()
    }

    #[test]
    fn units_are_those_of_utf_16() {
        let texts = [
            "",
            "abc",
            "ä",
            "😀",
            "aä😀b",
            &"aé漢😀\n".repeat(50),
            &"😀".repeat(40),
            &"x".repeat(300),
        ];
        for text in texts {
            let units = Units::new(text);
            assert_eq!(count(text.as_bytes()), units_of(text));
            assert_eq!(units.is_ascii(), text.is_ascii());
            let ends: Vec<usize> = (0..=text.len()).filter(|end| text.is_char_boundary(*end)).collect();
            for start in ends.iter().step_by(7) {
                for end in ends.iter().filter(|end| *end >= start) {
                    let wanted = units_of(&text[*start..*end]);
                    assert_eq!(
                        units.between(text.as_bytes(), *start, *end),
                        wanted,
                        "{text} {start} {end}"
                    );
                }
            }
        }
    }

    #[test]
    fn an_offset_has_the_units_before_it_or_is_the_one_before_them() {
        let text = "aé漢😀b".repeat(30);
        for (offset, c) in text.char_indices() {
            let units = units_of(&text[..offset]);
            assert_eq!(offset_of(&text, units), offset);
            if c.len_utf16() == 2 {
                assert_eq!(offset_of(&text, units + 1), offset, "between two surrogates");
            }
        }
        assert_eq!(offset_of(&text, usize::MAX), text.len());
        assert_eq!(offset_of("", 3), 0);
    }
}
