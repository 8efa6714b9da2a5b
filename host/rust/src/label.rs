//! Labels alone: how two of them stand to each other.

use std::fmt;
use std::ops::Deref;

use crate::refusal::ask;
use crate::{ffi, Refusal};

/// A label: its depth, then fifteen components, the unused ones 0. A `Label` is always one that the
/// library accepts, and it can be handed in wherever the words of a label are asked for.
///
/// ```
/// use jiszteruk::{Label, Refusal};
///
/// let label = Label::from_components(&[1, 0, 4])?;
/// assert_eq!(label.depth(), 3);
/// assert_eq!(label[..4], [3, 1, 0, 4]);
/// assert_eq!(label.to_string(), "1.0.4");
/// assert_eq!(Label::ROOT.to_string(), ".");
/// # Ok::<(), Refusal>(())
/// ```
#[derive(Clone, Copy, Debug, PartialEq, Eq, Hash)]
pub struct Label {
    words: [u16; Label::WORDS],
}

impl Label {
    /// The words of a label.
    pub const WORDS: usize = 16;
    /// The deepest level.
    pub const MAX_DEPTH: usize = 15;
    /// The largest component.
    pub const MAX_COMPONENT: u16 = 65_534;
    /// The root's label, which is empty.
    pub const ROOT: Label = Label {
        words: [0; Label::WORDS],
    };

    /// Takes the words of a label. Refused 15.
    ///
    /// ```
    /// use jiszteruk::{Label, Refusal};
    ///
    /// let refusal = Label::from_words(&[1, 7]).unwrap_err();
    /// assert_eq!(refusal, Refusal { number: Refusal::NOT_LABEL, place: 0 });
    /// ```
    pub fn from_words(words: &[u16]) -> Result<Label, Refusal> {
        // Every call that takes a label has the same check; kinship has no other.
        ask(|answer| ffi::kinship(words, words, answer))?;
        let mut label = Self::ROOT;
        label.words.copy_from_slice(words);
        Ok(label)
    }

    /// The label with these components. Refused 15 where there are more than fifteen or one is 65,535.
    pub fn from_components(components: &[u16]) -> Result<Label, Refusal> {
        let depth = components.len();
        if depth > Self::MAX_DEPTH {
            return Err(Refusal {
                number: Refusal::NOT_LABEL,
                place: 0,
            });
        }
        let mut words = [0; Self::WORDS];
        words[0] = depth as u16;
        words[1..=depth].copy_from_slice(components);
        Self::from_words(&words)
    }

    /// What an accepted call wrote as a label.
    pub(crate) fn answered(words: [u16; Self::WORDS]) -> Label {
        Label { words }
    }

    /// The level: 0 for the root.
    pub fn depth(&self) -> usize {
        usize::from(self.words[0])
    }

    /// The used components.
    pub fn components(&self) -> &[u16] {
        &self.words[1..=self.depth()]
    }
}

impl Deref for Label {
    type Target = [u16];

    /// The sixteen words.
    fn deref(&self) -> &[u16] {
        &self.words
    }
}

impl fmt::Display for Label {
    /// Components joined by dots, the root as a single dot.
    fn fmt(&self, f: &mut fmt::Formatter<'_>) -> fmt::Result {
        let Some((first, rest)) = self.components().split_first() else {
            return write!(f, ".");
        };
        write!(f, "{first}")?;
        rest.iter()
            .try_for_each(|component| write!(f, ".{component}"))
    }
}

/// What the first of two elements is to the second.
#[derive(Clone, Copy, Debug, PartialEq, Eq, Hash)]
pub enum Kinship {
    /// Both are the same element.
    Same = 0,
    /// The first is the second's parent.
    Parent = 1,
    /// The first is an ancestor of the second, but not its parent.
    HigherAncestor = 2,
    /// The first is a child of the second.
    Child = 3,
    /// The first is a descendant of the second, but no child.
    DeeperDescendant = 4,
    /// Neither is an ancestor of the other.
    Unrelated = 5,
}

impl Kinship {
    /// The kinship that has this number.
    fn of(number: usize) -> Kinship {
        match number {
            0 => Kinship::Same,
            1 => Kinship::Parent,
            2 => Kinship::HigherAncestor,
            3 => Kinship::Child,
            4 => Kinship::DeeperDescendant,
            _ => Kinship::Unrelated,
        }
    }
}

/// What the first label is to the second. Refused 15.
///
/// ```
/// use jiszteruk::{kinship, Kinship, Label, Refusal};
///
/// let label = Label::from_components(&[1, 0])?;
/// assert_eq!(kinship(&Label::ROOT, &label)?, Kinship::HigherAncestor);
/// assert_eq!(kinship(&label, &label)?, Kinship::Same);
/// # Ok::<(), Refusal>(())
/// ```
pub fn kinship(first: &[u16], second: &[u16]) -> Result<Kinship, Refusal> {
    ask(|answer| ffi::kinship(first, second, answer)).map(Kinship::of)
}

/// Whether the first label is greater in label order: components are compared in turn, and a prefix
/// comes first. Refused 15.
///
/// ```
/// use jiszteruk::{follows, Label, Refusal};
///
/// let (near, deep) = (Label::from_components(&[2])?, Label::from_components(&[1, 0])?);
/// assert!(follows(&near, &deep)?);
/// assert!(!follows(&near, &near)?);
/// # Ok::<(), Refusal>(())
/// ```
pub fn follows(first: &[u16], second: &[u16]) -> Result<bool, Refusal> {
    ask(|answer| ffi::follows(first, second, answer)).map(|value| value != 0)
}
