//! Repetitions: one, and a block of them.

use core::ops::{Range, RangeInclusive};

/// A passage that stands twice in a row.
#[derive(Clone, Copy, Debug, PartialEq, Eq, Hash)]
#[non_exhaustive]
pub struct Repetition {
    /// Where it begins; starts count from 0.
    pub start: usize,
    /// Bytes of the passage, which is half of the repetition.
    pub half: usize,
}

impl Repetition {
    /// The places of all its bytes in the text.
    ///
    /// ```
    /// let text = b"say so so.";
    /// if let Some(longest) = porthwynna::lent::longest(text, &mut [0; 20])? {
    ///     assert_eq!(&text[longest.range()], b" so so");
    /// }
    /// # Ok::<(), porthwynna::Refusal>(())
    /// ```
    #[must_use]
    pub fn range(&self) -> Range<usize> {
        self.start..self.start + 2 * self.half
    }

    /// The passage, out of the text that it was found in.
    ///
    /// ```
    /// let text = b"say so so.";
    /// if let Some(longest) = porthwynna::lent::longest(text, &mut [0; 20])? {
    ///     assert_eq!(longest.passage(text), b" so");
    /// }
    /// # Ok::<(), porthwynna::Refusal>(())
    /// ```
    ///
    /// # Panics
    ///
    /// Where the text is a shorter one, which ends before the passage does.
    #[must_use]
    pub fn passage<'t>(&self, text: &'t [u8]) -> &'t [u8] {
        &text[self.start..self.start + self.half]
    }
}

/// Repetitions of one half at consecutive starts.
#[derive(Clone, Copy, Debug, PartialEq, Eq, Hash)]
#[non_exhaustive]
pub struct Block {
    /// Half of each.
    pub half: u16,
    /// First start.
    pub first: u16,
    /// Last start.
    pub last: u16,
}

impl Block {
    /// The starts, as places in the text.
    ///
    /// ```
    /// # #[cfg(feature = "std")] {
    /// let text = b"go go go";
    /// for block in &porthwynna::find(text)? {
    ///     let half = usize::from(block.half);
    ///     for start in block.starts() {
    ///         let centre = start + half;
    ///         assert_eq!(text[start..centre], text[centre..centre + half]);
    ///     }
    /// }
    /// # }
    /// # Ok::<(), porthwynna::Refusal>(())
    /// ```
    #[must_use]
    pub fn starts(&self) -> RangeInclusive<usize> {
        self.first.into()..=self.last.into()
    }

    /// The places of all its bytes in the text, from the first start to the end of the last
    /// repetition.
    ///
    /// ```
    /// # #[cfg(feature = "std")] {
    /// let text = b"go go go";
    /// let found = porthwynna::find(text)?;
    /// assert_eq!(&text[found.blocks[0].range()], b"o go go");
    /// # }
    /// # Ok::<(), porthwynna::Refusal>(())
    /// ```
    #[must_use]
    pub fn range(&self) -> Range<usize> {
        self.first.into()..usize::from(self.last) + 2 * usize::from(self.half)
    }

    /// The passage that stands twice at the first start, out of the text that the block was found
    /// in.
    ///
    /// ```
    /// # #[cfg(feature = "std")] {
    /// let text = b"go go go";
    /// let found = porthwynna::find(text)?;
    /// assert_eq!(found.blocks[0].passage(text), b"o g");
    /// # }
    /// # Ok::<(), porthwynna::Refusal>(())
    /// ```
    ///
    /// # Panics
    ///
    /// Where the text is a shorter one, which ends before the passage does.
    #[must_use]
    pub fn passage<'t>(&self, text: &'t [u8]) -> &'t [u8] {
        let start = usize::from(self.first);
        &text[start..start + usize::from(self.half)]
    }
}
