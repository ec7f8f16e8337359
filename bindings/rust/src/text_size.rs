//! Offsets and ranges in bytes, in 32 bits.

use std::fmt;
use std::iter::Sum;
use std::num::TryFromIntError;
use std::ops::{Add, AddAssign, Bound, Index, IndexMut, Range, RangeBounds, Sub, SubAssign};

/// A length of text in bytes, or an offset into it.
#[derive(Clone, Copy, Default, PartialEq, Eq, PartialOrd, Ord, Hash)]
pub struct TextSize {
    raw: u32,
}

impl TextSize {
    /// Creates a size of `raw` bytes.
    #[inline]
    pub const fn new(raw: u32) -> TextSize {
        TextSize { raw }
    }

    /// Returns the size of a text or a character.
    ///
    /// # Panics
    /// If the text has 2^32 bytes or more.
    pub fn of<T: TextLen>(text: T) -> TextSize {
        text.text_len()
    }

    /// Returns the sum, or `None` if it overflows 32 bits.
    pub const fn checked_add(self, other: TextSize) -> Option<TextSize> {
        match self.raw.checked_add(other.raw) {
            Some(raw) => Some(TextSize { raw }),
            None => None,
        }
    }

    /// Returns the difference, or `None` if `other` is greater.
    pub const fn checked_sub(self, other: TextSize) -> Option<TextSize> {
        match self.raw.checked_sub(other.raw) {
            Some(raw) => Some(TextSize { raw }),
            None => None,
        }
    }
}

impl fmt::Debug for TextSize {
    fn fmt(&self, f: &mut fmt::Formatter<'_>) -> fmt::Result {
        write!(f, "{}", self.raw)
    }
}

impl From<u32> for TextSize {
    fn from(raw: u32) -> TextSize {
        TextSize { raw }
    }
}

impl From<TextSize> for u32 {
    fn from(size: TextSize) -> u32 {
        size.raw
    }
}

impl From<TextSize> for usize {
    fn from(size: TextSize) -> usize {
        size.raw as usize
    }
}

impl TryFrom<usize> for TextSize {
    type Error = TryFromIntError;

    fn try_from(size: usize) -> Result<TextSize, TryFromIntError> {
        Ok(TextSize {
            raw: u32::try_from(size)?,
        })
    }
}

impl Add<TextSize> for TextSize {
    type Output = TextSize;

    fn add(self, other: TextSize) -> TextSize {
        TextSize::new(self.raw + other.raw)
    }
}

impl Sub<TextSize> for TextSize {
    type Output = TextSize;

    fn sub(self, other: TextSize) -> TextSize {
        TextSize::new(self.raw - other.raw)
    }
}

// The same operators with a reference on either side, and the assigning one.
macro_rules! operator_by_reference {
    ($Op:ident $op:ident, $OpAssign:ident $op_assign:ident, $name:ident) => {
        impl $Op<&TextSize> for $name {
            type Output = $name;

            fn $op(self, other: &TextSize) -> $name {
                $Op::$op(self, *other)
            }
        }

        impl<T> $Op<T> for &$name
        where
            $name: $Op<T, Output = $name>,
        {
            type Output = $name;

            fn $op(self, other: T) -> $name {
                $Op::$op(*self, other)
            }
        }

        impl<T> $OpAssign<T> for $name
        where
            $name: $Op<T, Output = $name>,
        {
            fn $op_assign(&mut self, other: T) {
                *self = $Op::$op(*self, other);
            }
        }
    };
}

operator_by_reference! { Add add, AddAssign add_assign, TextSize }
operator_by_reference! { Sub sub, SubAssign sub_assign, TextSize }
operator_by_reference! { Add add, AddAssign add_assign, TextRange }
operator_by_reference! { Sub sub, SubAssign sub_assign, TextRange }

impl<T> Sum<T> for TextSize
where
    TextSize: Add<T, Output = TextSize>,
{
    fn sum<I: Iterator<Item = T>>(sizes: I) -> TextSize {
        sizes.fold(TextSize::default(), Add::add)
    }
}

/// Text that has a length in bytes.
pub trait TextLen: Copy {
    /// Returns the length in bytes.
    fn text_len(self) -> TextSize;
}

impl TextLen for &str {
    fn text_len(self) -> TextSize {
        TextSize::try_from(self.len()).expect("a text has fewer than 2^32 bytes")
    }
}

impl TextLen for &String {
    fn text_len(self) -> TextSize {
        self.as_str().text_len()
    }
}

impl TextLen for char {
    fn text_len(self) -> TextSize {
        TextSize::new(self.len_utf8() as u32)
    }
}

/// A half-open range of a text, in bytes.
#[derive(Clone, Copy, Default, PartialEq, Eq, Hash)]
pub struct TextRange {
    start: TextSize,
    end: TextSize,
}

impl TextRange {
    /// Creates the range `start..end`.
    ///
    /// # Panics
    /// If `end` is less than `start`.
    #[inline]
    pub fn new(start: TextSize, end: TextSize) -> TextRange {
        assert!(start <= end, "the end of a range is not before its start");
        TextRange { start, end }
    }

    /// Creates the range of `len` bytes from `start` on.
    pub fn at(start: TextSize, len: TextSize) -> TextRange {
        TextRange::new(start, start + len)
    }

    /// Creates the empty range at `offset`.
    pub const fn empty(offset: TextSize) -> TextRange {
        TextRange {
            start: offset,
            end: offset,
        }
    }

    /// Creates the range `0..end`.
    pub const fn up_to(end: TextSize) -> TextRange {
        TextRange {
            start: TextSize::new(0),
            end,
        }
    }

    /// Returns the start offset.
    #[inline]
    pub const fn start(self) -> TextSize {
        self.start
    }

    /// Returns the end offset, which is exclusive.
    #[inline]
    pub const fn end(self) -> TextSize {
        self.end
    }

    /// Returns the length in bytes.
    #[inline]
    pub const fn len(self) -> TextSize {
        TextSize::new(self.end.raw - self.start.raw)
    }

    /// Returns whether the range is empty.
    pub const fn is_empty(self) -> bool {
        self.start.raw == self.end.raw
    }

    /// Returns whether the range contains `offset`, the end excluded.
    pub fn contains(self, offset: TextSize) -> bool {
        self.start <= offset && offset < self.end
    }

    /// Returns whether the range contains `offset`, the end included.
    pub fn contains_inclusive(self, offset: TextSize) -> bool {
        self.start <= offset && offset <= self.end
    }

    /// Returns whether the range contains all of `other`.
    pub fn contains_range(self, other: TextRange) -> bool {
        self.start <= other.start && other.end <= self.end
    }

    /// Returns the intersection, which is empty where the ranges only touch, or `None` if they are disjoint.
    pub fn intersect(self, other: TextRange) -> Option<TextRange> {
        let (start, end) = (self.start.max(other.start), self.end.min(other.end));
        (start <= end).then_some(TextRange { start, end })
    }

    /// Returns the smallest range that contains both.
    pub fn cover(self, other: TextRange) -> TextRange {
        TextRange {
            start: self.start.min(other.start),
            end: self.end.max(other.end),
        }
    }

    /// Returns the smallest range that contains this one and `offset`.
    pub fn cover_offset(self, offset: TextSize) -> TextRange {
        self.cover(TextRange::empty(offset))
    }

    /// Returns the range shifted right by `offset`, or `None` if it overflows 32 bits.
    pub fn checked_add(self, offset: TextSize) -> Option<TextRange> {
        Some(TextRange {
            start: self.start.checked_add(offset)?,
            end: self.end.checked_add(offset)?,
        })
    }

    /// Returns the range shifted left by `offset`, or `None` if it would start before 0.
    pub fn checked_sub(self, offset: TextSize) -> Option<TextRange> {
        Some(TextRange {
            start: self.start.checked_sub(offset)?,
            end: self.end.checked_sub(offset)?,
        })
    }

    /// Compares two ranges by position; ranges that overlap are equal.
    pub fn ordering(self, other: TextRange) -> std::cmp::Ordering {
        if self.end <= other.start {
            std::cmp::Ordering::Less
        } else if other.end <= self.start {
            std::cmp::Ordering::Greater
        } else {
            std::cmp::Ordering::Equal
        }
    }
}

impl fmt::Debug for TextRange {
    fn fmt(&self, f: &mut fmt::Formatter<'_>) -> fmt::Result {
        write!(f, "{:?}..{:?}", self.start, self.end)
    }
}

impl<T: From<TextSize>> From<TextRange> for Range<T> {
    fn from(range: TextRange) -> Range<T> {
        range.start.into()..range.end.into()
    }
}

impl RangeBounds<TextSize> for TextRange {
    fn start_bound(&self) -> Bound<&TextSize> {
        Bound::Included(&self.start)
    }

    fn end_bound(&self) -> Bound<&TextSize> {
        Bound::Excluded(&self.end)
    }
}

/// # Panics
/// If the end overflows 32 bits.
impl Add<TextSize> for TextRange {
    type Output = TextRange;

    fn add(self, offset: TextSize) -> TextRange {
        self.checked_add(offset).expect("the end of a range fits in 32 bits")
    }
}

/// # Panics
/// If the start would be negative.
impl Sub<TextSize> for TextRange {
    type Output = TextRange;

    fn sub(self, offset: TextSize) -> TextRange {
        self.checked_sub(offset).expect("the start of a range is not negative")
    }
}

impl Index<TextRange> for str {
    type Output = str;

    fn index(&self, range: TextRange) -> &str {
        &self[Range::<usize>::from(range)]
    }
}

impl IndexMut<TextRange> for str {
    fn index_mut(&mut self, range: TextRange) -> &mut str {
        &mut self[Range::<usize>::from(range)]
    }
}

impl Index<TextRange> for String {
    type Output = str;

    fn index(&self, range: TextRange) -> &str {
        &self[Range::<usize>::from(range)]
    }
}

impl IndexMut<TextRange> for String {
    fn index_mut(&mut self, range: TextRange) -> &mut str {
        &mut self[Range::<usize>::from(range)]
    }
}

#[cfg(test)]
mod tests {
    use super::*;

    fn range(start: u32, end: u32) -> TextRange {
        TextRange::new(TextSize::new(start), TextSize::new(end))
    }

    #[test]
    fn ranges_are_shifted() {
        assert_eq!(range(3, 10) + TextSize::new(5), range(8, 15));
        assert_eq!(range(8, 15) - TextSize::new(8), range(0, 7));
    }

    #[test]
    #[should_panic = "fits in 32 bits"]
    fn a_range_is_not_shifted_beyond_32_bits() {
        let _ = range(0, 10) + TextSize::new(u32::MAX);
    }

    #[test]
    #[should_panic = "is not negative"]
    fn a_range_is_not_shifted_before_0() {
        let _ = range(3, 10) - TextSize::new(5);
    }
}
