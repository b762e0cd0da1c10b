//! The two productions that draw on one stock.

/// A production: its bins, numbered from 1, its count of B2 items and its counts
/// of bins are its own, and only the stock is both's.
///
/// ```
/// use shelf::Production;
///
/// assert_eq!(Production::from_number(1), Some(Production::Second));
/// assert_eq!(Production::BOTH.map(Production::number), [0, 1]);
/// assert_eq!(Production::from_number(2), None);
/// ```
#[derive(Debug, Clone, Copy, PartialEq, Eq, PartialOrd, Ord, Hash, Default)]
#[repr(u8)]
pub enum Production {
    /// Production 0, in which a stream starts.
    #[default]
    First = 0,
    /// Production 1.
    Second = 1,
}

impl Production {
    /// Both productions, in the order of the sheet.
    pub const BOTH: [Self; 2] = [Self::First, Self::Second];

    /// Its number in a stream and in an answer, 0 or 1.
    pub fn number(self) -> u8 {
        self as u8
    }

    /// The production with this number, if there is one.
    pub fn from_number(number: u8) -> Option<Self> {
        Self::BOTH.get(usize::from(number)).copied()
    }
}

impl From<Production> for u8 {
    fn from(production: Production) -> Self {
        production.number()
    }
}
