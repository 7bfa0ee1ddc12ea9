use std::error::Error;
use std::fmt;

/// Why a call was turned away; nothing was written then.
///
/// The library may be newer than this crate. A number that has no name here is kept, as `Other`, and a later version may
/// name it: so a `match` has an arm for the rest, and [`Refusal::number`] tells such numbers apart.
///
/// ```
/// use satinjacks::Refusal;
///
/// let advice = |refusal| match refusal {
///     Refusal::FullTable => "call with fewer objects",
///     Refusal::RunOver => "make a new tracker",
///     _ => "report it",
/// };
/// assert_eq!(Refusal::from_number(7).map(advice), Some("call with fewer objects"));
/// assert_eq!(Refusal::from_number(1000).map(advice), Some("report it"));
/// ```
#[derive(Clone, Copy, Debug, PartialEq, Eq, Hash)]
#[non_exhaustive]
pub enum Refusal {
    /// 1: the state breaks a state rule, or has a tag that is neither 0 nor 1.
    UnsoundState,
    /// 2: a setting is outside its range.
    BadSetting,
    /// 3: the input's length is no multiple of 5. Never told here, where a frame is a list of detections.
    RaggedFrame,
    /// 4: more than 64 objects.
    CrowdedFrame,
    /// 5: a buffer for the answer is too short. Never told here, where the buffers are this crate's.
    ShortAnswer,
    /// 6: 1,000,000 frames are counted; make a new tracker.
    RunOver,
    /// 7: more than 64 tracks; call with no objects, which ages tracks, or with fewer.
    FullTable,
    /// 8: the assignment's sizes don't agree, or aren't 1 to 64.
    BadMatrix,
    /// 12: a whole cost is outside -1,000,000 to 1,000,000.
    CostOutOfRange,
    /// A number that this version has no name for; a pattern for it is `Refusal::Other { .. }`. Only
    /// [`Refusal::from_number`] makes one, so no named number is in it.
    #[non_exhaustive]
    Other(u64),
}

impl Refusal {
    /// The refusal of a number that a call returned; none for 0, which is an accepted call's.
    pub fn from_number(number: u64) -> Option<Self> {
        Some(match number {
            0 => return None,
            1 => Self::UnsoundState,
            2 => Self::BadSetting,
            3 => Self::RaggedFrame,
            4 => Self::CrowdedFrame,
            5 => Self::ShortAnswer,
            6 => Self::RunOver,
            7 => Self::FullTable,
            8 => Self::BadMatrix,
            12 => Self::CostOutOfRange,
            other => Self::Other(other),
        })
    }

    /// The number, as the library's calls return it.
    pub fn number(self) -> u64 {
        match self {
            Self::UnsoundState => 1,
            Self::BadSetting => 2,
            Self::RaggedFrame => 3,
            Self::CrowdedFrame => 4,
            Self::ShortAnswer => 5,
            Self::RunOver => 6,
            Self::FullTable => 7,
            Self::BadMatrix => 8,
            Self::CostOutOfRange => 12,
            Self::Other(number) => number,
        }
    }
}

impl fmt::Display for Refusal {
    fn fmt(&self, f: &mut fmt::Formatter<'_>) -> fmt::Result {
        f.write_str(match self {
            Self::UnsoundState => "unsound state: it breaks a state rule",
            Self::BadSetting => "bad setting: outside its range",
            Self::RaggedFrame => "ragged frame: the input's length is no multiple of 5",
            Self::CrowdedFrame => "crowded frame: more than 64 objects",
            Self::ShortAnswer => "short answer: a buffer is below 256 floats or 64 ids",
            Self::RunOver => "run over: 1,000,000 frames are counted",
            Self::FullTable => "full table: more than 64 tracks; call with no objects or with fewer",
            Self::BadMatrix => "bad matrix: the assignment's sizes don't agree",
            Self::CostOutOfRange => "cost out of range: a whole cost is outside -1,000,000 to 1,000,000",
            Self::Other(number) => return write!(f, "refusal {number}: this version has no word for it"),
        })
    }
}

impl Error for Refusal {}
