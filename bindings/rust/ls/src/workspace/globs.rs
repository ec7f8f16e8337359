//! Patterns of names and paths, as the lines of a `.gitignore` have them.

/// Bytes from one to another.
type Bytes = (u8, u8);

/// The classes of bytes that have names, as in `[[:alpha:]]`, each with its ranges, which include their ends.
const NAMED: &[(&[u8], &[Bytes])] = &[
    (b"alnum", &[(b'0', b'9'), (b'A', b'Z'), (b'a', b'z')]),
    (b"alpha", &[(b'A', b'Z'), (b'a', b'z')]),
    (b"blank", &[(b'\t', b'\t'), (b' ', b' ')]),
    (b"cntrl", &[(0, 31), (127, 127)]),
    (b"digit", &[(b'0', b'9')]),
    (b"graph", &[(33, 126)]),
    (b"lower", &[(b'a', b'z')]),
    (b"print", &[(32, 126)]),
    (b"punct", &[(33, 47), (58, 64), (91, 96), (123, 126)]),
    (b"space", &[(9, 13), (b' ', b' ')]),
    (b"upper", &[(b'A', b'Z')]),
    (b"xdigit", &[(b'0', b'9'), (b'A', b'F'), (b'a', b'f')]),
];

/// The bytes in some ranges, or those outside of them.
#[derive(Clone, Debug, Default)]
struct Class {
    ranges: Vec<Bytes>,
    is_negated: bool,
}

/// A part of a pattern, and what it matches. No part but the last two matches a `/`, unless it is that byte.
#[derive(Clone, Debug)]
enum Part {
    /// This byte.
    Byte(u8),
    /// `?`: one byte.
    AnyByte,
    /// `[..]`: one byte of a class.
    Class(Class),
    /// `*`: any bytes.
    AnyBytes,
    /// `**/`: any folders, each with its `/`.
    AnyFolders,
    /// `**` after the last `/`: one byte or more.
    AllBelow,
}

/// A pattern.
#[derive(Clone, Debug)]
pub struct Glob {
    parts: Vec<Part>,
}

// The byte at the start of a text, and what comes after it. A backslash quotes the byte after it.
fn byte_of(text: &[u8]) -> Option<(u8, &[u8])> {
    let text = text.strip_prefix(b"\\").unwrap_or(text);
    text.split_first().map(|(byte, rest)| (*byte, rest))
}

// The ranges of a class with a name at the start of a text, as `[:alpha:]`, and what comes after it.
fn named_of(text: &[u8]) -> Option<(&'static [Bytes], &[u8])> {
    let inside = text.strip_prefix(b"[:")?;
    let end = inside.windows(2).position(|pair| pair == b":]")?;
    let (_, ranges) = NAMED.iter().find(|(name, _)| *name == &inside[..end])?;
    Some((ranges, &inside[end + 2..]))
}

impl Class {
    // Adds what is at the start of a text: a class with a name, a byte, or two with `-` between them. Returns what comes after it.
    fn add<'t>(&mut self, text: &'t [u8]) -> Option<&'t [u8]> {
        if let Some((ranges, rest)) = named_of(text) {
            self.ranges.extend(ranges);
            return Some(rest);
        }
        let (first, rest) = byte_of(text)?;
        let after = rest.strip_prefix(b"-").filter(|after| !after.starts_with(b"]"));
        let (last, rest) = after.and_then(byte_of).unwrap_or((first, rest));
        self.ranges.push((first, last.max(first)));
        Some(rest)
    }

    // The class after a `[`, and what comes after its `]`. The first byte is no `]` that closes it.
    fn read(text: &[u8]) -> Option<(Class, &[u8])> {
        let inner = text.strip_prefix(b"!").or_else(|| text.strip_prefix(b"^"));
        let mut class = Class {
            ranges: Vec::new(),
            is_negated: inner.is_some(),
        };
        let mut rest = class.add(inner.unwrap_or(text))?;
        while !rest.starts_with(b"]") {
            rest = class.add(rest)?;
        }
        Some((class, &rest[1..]))
    }

    fn contains(&self, byte: u8) -> bool {
        let is_in = self.ranges.iter().any(|(first, last)| (*first..=*last).contains(&byte));
        is_in != self.is_negated
    }
}

// The part that asterisks are, and what comes after them. Two or more mean folders where they are a whole name.
fn stars(text: &[u8], is_first: bool) -> (Part, &[u8]) {
    let count = text.iter().take_while(|byte| **byte == b'*').count();
    let rest = &text[count..];
    match rest.first() {
        None if is_first && count > 1 => (Part::AllBelow, rest),
        Some(b'/') if is_first && count > 1 => (Part::AnyFolders, &rest[1..]),
        _ => (Part::AnyBytes, rest),
    }
}

// The part at the start of a text, and what comes after it. `is_first` says whether nothing or a `/` precedes it.
fn part_of(text: &[u8], is_first: bool) -> Option<(Part, &[u8])> {
    let (byte, rest) = text.split_first()?;
    match byte {
        b'?' => Some((Part::AnyByte, rest)),
        b'*' => Some(stars(text, is_first)),
        b'[' => Class::read(rest).map(|(class, rest)| (Part::Class(class), rest)),
        _ => byte_of(text).map(|(byte, rest)| (Part::Byte(byte), rest)),
    }
}

impl Glob {
    /// Returns the pattern of a text, in which no `/` is the first or the last byte, or `None` if it is broken.
    pub fn new(text: &[u8]) -> Option<Glob> {
        let (mut parts, mut rest) = (Vec::new(), text);
        while !rest.is_empty() {
            let before = text.len() - rest.len();
            let is_first = before == 0 || text[before - 1] == b'/';
            let (part, after) = part_of(rest, is_first)?;
            parts.push(part);
            rest = after;
        }
        Some(Glob { parts })
    }

    // Marks a position as reached, and those after it that are reached with no more bytes.
    fn enter(&self, position: usize, reached: &mut [bool]) {
        let is_passed = |part: &&Part| matches!(part, Part::AnyBytes | Part::AnyFolders);
        let passed = self.parts[position..].iter().take_while(is_passed).count();
        reached[position..=position + passed].fill(true);
    }

    // Marks the positions that are reached from one by a byte.
    fn advance(&self, position: usize, byte: u8, reached: &mut [bool]) {
        let is_name_byte = byte != b'/';
        match &self.parts[position] {
            Part::Byte(own) if *own == byte => self.enter(position + 1, reached),
            Part::AnyByte if is_name_byte => self.enter(position + 1, reached),
            Part::Class(class) if is_name_byte && class.contains(byte) => self.enter(position + 1, reached),
            Part::AnyBytes if is_name_byte => self.enter(position, reached),
            Part::AnyFolders => {
                reached[position] = true;
                if !is_name_byte {
                    self.enter(position + 1, reached);
                }
            }
            Part::AllBelow => {
                reached[position] = true;
                self.enter(position + 1, reached);
            }
            _ => {}
        }
    }

    // The positions that are reached from others by a byte.
    fn advance_all(&self, from: &[bool], byte: u8) -> Vec<bool> {
        let mut reached = vec![false; from.len()];
        let is_reached = |position: &usize| from[*position];
        for position in (0..self.parts.len()).filter(is_reached) {
            self.advance(position, byte, &mut reached);
        }
        reached
    }

    /// Returns whether the pattern matches a whole name or path. Takes time in proportion to the lengths of both, multiplied.
    pub fn matches(&self, path: &[u8]) -> bool {
        let mut reached = vec![false; self.parts.len() + 1];
        self.enter(0, &mut reached);
        for byte in path {
            reached = self.advance_all(&reached, *byte);
            if !reached.contains(&true) {
                return false;
            }
        }
        reached.last() == Some(&true)
    }
}

#[cfg(test)]
mod tests {
    use super::*;

    // As `git check-ignore` says.
    #[test]
    fn patterns_match_what_git_matches() {
        for (pattern, path, wanted) in [
            ("a", "a", true),
            ("a", "ab", false),
            ("*.nix", "b.nix", true),
            ("*.nix", "c/b.nix", false),
            ("a?c", "abc", true),
            ("a?c", "a/c", false),
            ("[a-c]x", "bx", true),
            ("[!a-c]x", "bx", false),
            ("[^a-c]x", "dx", true),
            ("[]a]x", "]x", true),
            ("[[:digit:]]", "7", true),
            ("[[:digit:]-]", "-", true),
            ("**/b", "b", true),
            ("**/b", "a/c/b", true),
            ("a/**", "a/b/c", true),
            ("a/**", "a", false),
            ("a/**/b", "a/b", true),
            ("a/**/b", "a/x/y/b", true),
            ("a**b", "axyb", true),
            ("a**b", "ax/yb", false),
            ("\\*", "*", true),
            ("\\*", "x", false),
        ] {
            let glob = Glob::new(pattern.as_bytes()).unwrap();
            assert_eq!(glob.matches(path.as_bytes()), wanted, "{pattern} {path}");
        }
    }

    #[test]
    fn broken_patterns_are_none() {
        for pattern in ["[a", "[", "a\\", "[]"] {
            assert!(Glob::new(pattern.as_bytes()).is_none(), "{pattern}");
        }
    }

    #[test]
    fn many_asterisks_take_no_longer_than_the_lengths_multiplied() {
        let glob = Glob::new("*a".repeat(500).as_bytes()).unwrap();
        assert!(!glob.matches(("a".repeat(2000) + "b").as_bytes()));
    }
}
