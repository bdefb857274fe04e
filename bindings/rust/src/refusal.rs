//! Why a call hands nothing out.

use crate::lent::narrow;
use core::fmt;

/// Why a call hands nothing out, with document 01's numbers. Where several apply the lowest is given, but
/// [`BadPicture`](Refusal::BadPicture) before [`NoRoom`](Refusal::NoRoom).
#[derive(Clone, Copy, Debug, PartialEq, Eq, PartialOrd, Ord, Hash)]
#[repr(u8)]
pub enum Refusal {
    /// The size of a chart or a spiral, or a field of a spiral, is out of range, or the pixels are too few.
    BadSize = 1,
    /// A list has over 4,096 points.
    TooMany = 2,
    /// A coordinate is out of range, NaN or infinite.
    BadPoint = 3,
    /// There are fewer points than the call can do anything with.
    TooFew = 4,
    /// A tolerance is NaN or out of range.
    BadTolerance = 5,
    /// The flags are too many or too few, or one is neither 0 nor 1.
    BadFlags = 6,
    /// A ratio, a length or a pair is out of range or NaN.
    BadSettings = 7,
    /// There is no way on from the start of a walk, or no pixel of a chart is set.
    NoWay = 8,
    /// After some run a walk has over 1,000,000 steps: it does not come back to its start. See
    /// [`Chart::walk`](crate::Chart::walk).
    Stuck = 9,
    /// A lent slice is too short.
    NoRoom = 10,
    /// Only in the answers of [`answer`](crate::answer): no frame.
    BadFrame = 11,
    /// No PBM picture, or not all of one.
    BadPicture = 12,
}

const ALL: [Refusal; 12] = [
    Refusal::BadSize,
    Refusal::TooMany,
    Refusal::BadPoint,
    Refusal::TooFew,
    Refusal::BadTolerance,
    Refusal::BadFlags,
    Refusal::BadSettings,
    Refusal::NoWay,
    Refusal::Stuck,
    Refusal::NoRoom,
    Refusal::BadFrame,
    Refusal::BadPicture,
];

impl Refusal {
    /// Document 01's number.
    ///
    /// ```
    /// assert_eq!(sandline::Refusal::NoRoom.number(), 10);
    /// ```
    pub const fn number(self) -> u8 {
        self as u8
    }

    /// The refusal of a number: none of 0, which is Done, and of what document 01 does not have.
    ///
    /// ```
    /// use sandline::Refusal;
    /// assert_eq!(Refusal::of_number(8), Some(Refusal::NoWay));
    /// assert_eq!(Refusal::of_number(0), None);
    /// ```
    pub fn of_number(number: u8) -> Option<Refusal> {
        ALL.into_iter().find(|refusal| refusal.number() == number)
    }
}

impl fmt::Display for Refusal {
    fn fmt(&self, f: &mut fmt::Formatter) -> fmt::Result {
        f.write_str(match self {
            Refusal::BadSize => "a size is out of range, or the pixels are too few",
            Refusal::TooMany => "a list has over 4,096 points",
            Refusal::BadPoint => "a coordinate is out of range, or a list has half a point",
            Refusal::TooFew => "there are too few points",
            Refusal::BadTolerance => "a tolerance is out of range",
            Refusal::BadFlags => "the flags are too many or too few, or not 0 and 1",
            Refusal::BadSettings => "a setting is out of range",
            Refusal::NoWay => "there is no way on from the start",
            Refusal::Stuck => "the walk goes on past a million steps",
            Refusal::NoRoom => "a lent slice is too short",
            Refusal::BadFrame => "no frame",
            Refusal::BadPicture => "no picture, or not all of one",
        })
    }
}

impl core::error::Error for Refusal {}

/// What a call answers that puts a count in place of the one it is lent.
pub(crate) fn counted(call: impl FnOnce(&mut u64) -> u8) -> Result<usize, Refusal> {
    answered(0, call).map(narrow)
}

/// What a call answers that puts its answer in place of the one it is lent.
pub(crate) fn answered<T>(mut answer: T, call: impl FnOnce(&mut T) -> u8) -> Result<T, Refusal> {
    handed(call(&mut answer), answer)
}

/// What a call answers whose number was this: `answer` if it is done.
pub(crate) fn handed<T>(number: u8, answer: T) -> Result<T, Refusal> {
    match number {
        0 => Ok(answer),
        _ => Err(Refusal::of_number(number).expect("a number of document 01")),
    }
}
