//! The boards that the model knows.

use std::fmt;

/// The length of a DC100 board's display cache: request 11 of document 02, "DC100 boards carry 4 MiB of their own."
///
/// ```
/// use mitrophel::{Board, DISPLAY_BYTES};
///
/// assert_eq!(DISPLAY_BYTES, 4 << 20);
/// assert_eq!(Board::Dc100.display_bytes(), DISPLAY_BYTES);
/// ```
pub const DISPLAY_BYTES: usize = 4 << 20;

/// A board kind. The discriminant is the number that the call takes.
///
/// ```
/// use mitrophel::Board;
///
/// assert_eq!(Board::from_number(1), Some(Board::Dc100));
/// assert_eq!(Board::named("82810-main"), Some(Board::I82810Main));
/// assert_eq!(Board::default().to_string(), "82810");
/// ```
#[derive(Clone, Copy, Debug, Default, PartialEq, Eq, Hash)]
#[repr(u32)]
pub enum Board {
    /// Intel's 82810, with a translation table that is private to the model.
    #[default]
    I82810 = 0,
    /// Intel's 82810-DC100, with a translation table that is private to the model.
    Dc100 = 1,
    /// Intel's 82810, with its translation table in main memory.
    I82810Main = 2,
    /// Intel's 82810-DC100, with its translation table in main memory.
    Dc100Main = 3,
}

impl Board {
    /// Every board kind, in the order of its number.
    ///
    /// ```
    /// # use mitrophel::Board;
    /// assert_eq!(Board::ALL.map(Board::number), [0, 1, 2, 3]);
    /// ```
    pub const ALL: [Board; 4] = [Board::I82810, Board::Dc100, Board::I82810Main, Board::Dc100Main];

    /// The board kind of this number, if it is one.
    ///
    /// ```
    /// # use mitrophel::Board;
    /// assert_eq!(Board::from_number(4), None);
    /// ```
    pub fn from_number(number: u32) -> Option<Board> {
        Board::ALL.into_iter().find(|board| board.number() == number)
    }

    /// The number that the call takes.
    ///
    /// ```
    /// # use mitrophel::Board;
    /// assert_eq!(Board::Dc100.number(), 1);
    /// ```
    pub const fn number(self) -> u32 {
        self as u32
    }

    /// The board's name, as the command line takes it.
    ///
    /// ```
    /// # use mitrophel::Board;
    /// assert_eq!(Board::Dc100.name(), "dc100");
    /// assert_eq!(Board::Dc100Main.name(), "dc100-main");
    /// ```
    pub const fn name(self) -> &'static str {
        match self {
            Board::I82810 => "82810",
            Board::Dc100 => "dc100",
            Board::I82810Main => "82810-main",
            Board::Dc100Main => "dc100-main",
        }
    }

    /// The board of this name, in letters of either case.
    ///
    /// ```
    /// # use mitrophel::Board;
    /// assert_eq!(Board::named("DC100"), Some(Board::Dc100));
    /// assert_eq!(Board::named("82815"), None);
    /// ```
    pub fn named(name: &str) -> Option<Board> {
        Board::ALL.into_iter().find(|board| board.name().eq_ignore_ascii_case(name))
    }

    /// Whether the translation table is in main memory: request 10 of document 02 adds "board kinds 2 (82810) and
    /// 3 (DC100), where word i is at 2020h bits 31:12 plus 4i".
    ///
    /// ```
    /// # use mitrophel::Board;
    /// assert_eq!(Board::ALL.map(Board::table_in_memory), [false, false, true, true]);
    /// ```
    #[inline]
    pub const fn table_in_memory(self) -> bool {
        matches!(self, Board::I82810Main | Board::Dc100Main)
    }

    /// The length of the display cache that the board is lent: request 11 of document 02, "The host lends a second
    /// memory of 4 MiB for kinds 1 and 3, and of length 0 for the others".
    ///
    /// ```
    /// # use mitrophel::Board;
    /// assert_eq!(Board::ALL.map(Board::display_bytes), [0, 4 << 20, 0, 4 << 20]);
    /// ```
    #[inline]
    pub const fn display_bytes(self) -> usize {
        match self {
            Board::Dc100 | Board::Dc100Main => DISPLAY_BYTES,
            Board::I82810 | Board::I82810Main => 0,
        }
    }
}

impl fmt::Display for Board {
    fn fmt(&self, f: &mut fmt::Formatter<'_>) -> fmt::Result {
        f.write_str(self.name())
    }
}
