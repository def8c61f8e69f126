//! Why a call was refused, and about which edge.

use std::error::Error;
use std::fmt;

/// The seventeen reasons of a refusal, in the order of their numbers; and a number that this wrapper does not know, as an archive that is not
/// the wrapper's own may give it. A call that is wrong in several ways is refused by the first of 1, 2, 3, 4, 16, 17, 5, 6, 7, 8, 9, in this order.
#[derive(Clone, Copy, Debug, PartialEq, Eq, Hash, PartialOrd, Ord)]
pub enum Refusal {
    RoomTooShort,
    LengthsDiffer,
    ListSize,
    BadCoordinate,
    BadConfidence,
    BadLikelihood,
    BadTransform,
    BadTable,
    BadSetting,
    NoConfidence,
    NoneWithinLimit,
    ListsDisagree,
    NotFarAhead,
    SoftMargin,
    SoftHardDisagree,
    BadOrientation,
    BadBit,
    /// A number above 17: refused, and nothing else is known of it.
    Unknown(u32),
}

impl Refusal {
    /// The seventeen that have a name, in the order of their numbers from 1.
    pub const ALL: [Refusal; 17] = [
        Refusal::RoomTooShort,
        Refusal::LengthsDiffer,
        Refusal::ListSize,
        Refusal::BadCoordinate,
        Refusal::BadConfidence,
        Refusal::BadLikelihood,
        Refusal::BadTransform,
        Refusal::BadTable,
        Refusal::BadSetting,
        Refusal::NoConfidence,
        Refusal::NoneWithinLimit,
        Refusal::ListsDisagree,
        Refusal::NotFarAhead,
        Refusal::SoftMargin,
        Refusal::SoftHardDisagree,
        Refusal::BadOrientation,
        Refusal::BadBit,
    ];

    /// The refusal's number: 1 to 17, or the unknown one as the library gave it.
    pub fn number(self) -> u32 {
        match self {
            Refusal::RoomTooShort => 1,
            Refusal::LengthsDiffer => 2,
            Refusal::ListSize => 3,
            Refusal::BadCoordinate => 4,
            Refusal::BadConfidence => 5,
            Refusal::BadLikelihood => 6,
            Refusal::BadTransform => 7,
            Refusal::BadTable => 8,
            Refusal::BadSetting => 9,
            Refusal::NoConfidence => 10,
            Refusal::NoneWithinLimit => 11,
            Refusal::ListsDisagree => 12,
            Refusal::NotFarAhead => 13,
            Refusal::SoftMargin => 14,
            Refusal::SoftHardDisagree => 15,
            Refusal::BadOrientation => 16,
            Refusal::BadBit => 17,
            Refusal::Unknown(number) => number,
        }
    }

    // The refusal with a number, and none for 0, which means found.
    pub(crate) fn from_number(number: u32) -> Option<Refusal> {
        let place = (number as usize).checked_sub(1)?;
        Some(Refusal::ALL.get(place).copied().unwrap_or(Refusal::Unknown(number)))
    }
}

impl fmt::Display for Refusal {
    fn fmt(&self, out: &mut fmt::Formatter) -> fmt::Result {
        let words = match self {
            Refusal::RoomTooShort => "the room is too short",
            Refusal::LengthsDiffer => "the columns of one edge list differ in length",
            Refusal::ListSize => "a list is empty or has more than 8,192 edges",
            Refusal::BadCoordinate => "a row or column is beyond 1,000,000 either way",
            Refusal::BadConfidence => "a confidence is not a number from 0 to 1",
            Refusal::BadLikelihood => "a log likelihood is not a finite number from -65,536 to 65,536",
            Refusal::BadTransform => "there are no transforms, more than eight, or one above 7",
            Refusal::BadTable => {
                "the horizontal pattern table has not 4 to 500 entries from 0 to 7, their number no multiple of 3, or the vertical one not 167"
            }
            Refusal::BadSetting => "the error limit, the soft margin or the given origin is out of range",
            Refusal::NoConfidence => "a list has no confidence at all (to exact decode, none of 2^-25 or more)",
            Refusal::NoneWithinLimit => "no listed transform comes within the error limit",
            Refusal::ListsDisagree => "the logical and the physical list point to different squares",
            Refusal::NotFarAhead => "the best square is not far enough ahead of the next",
            Refusal::SoftMargin => "the soft scores of the two best are too close",
            Refusal::SoftHardDisagree => "the soft and the hard winner differ",
            Refusal::BadOrientation => "an orientation is not 0 or 1",
            Refusal::BadBit => "a bit is not 0 or 1",
            Refusal::Unknown(_) => "a number that this wrapper does not know",
        };
        write!(out, "refused ({}): {}", self.number(), words)
    }
}

/// The list of a call that holds an edge.
#[derive(Clone, Copy, Debug, PartialEq, Eq, Hash, PartialOrd, Ord)]
pub enum List {
    /// The logical list of hard, exact and soft decode.
    Logical,
    /// Their physical list, with its likelihoods.
    Physical,
    /// The list of a call that has one, as locate and match statistics.
    Only,
    /// A number that this wrapper does not know.
    Unknown(u32),
}

impl List {
    // The list with a number.
    fn from_number(number: u32) -> List {
        match number {
            1 => List::Logical,
            2 => List::Physical,
            3 => List::Only,
            _ => List::Unknown(number),
        }
    }
}

impl fmt::Display for List {
    fn fmt(&self, out: &mut fmt::Formatter) -> fmt::Result {
        match self {
            List::Logical => write!(out, "logical list"),
            List::Physical => write!(out, "physical list"),
            List::Only => write!(out, "only list"),
            List::Unknown(number) => write!(out, "list {number}, which this wrapper does not know"),
        }
    }
}

/// Which edge of a call.
#[derive(Clone, Copy, Debug, PartialEq, Eq, Hash, PartialOrd, Ord)]
pub struct EdgePlace {
    pub list: List,
    /// The index of the edge in the columns of its list, counting from 0.
    pub position: usize,
}

impl EdgePlace {
    // The place that an answer's two fields say, and none where both say nothing.
    fn from_numbers(list: u32, position: u32) -> Option<EdgePlace> {
        if list == NOTHING && position == NOTHING {
            return None;
        }
        Some(EdgePlace { list: List::from_number(list), position: position as usize })
    }
}

/// For people: the list by name, and the edge counting from 1.
impl fmt::Display for EdgePlace {
    fn fmt(&self, out: &mut fmt::Formatter) -> fmt::Result {
        write!(out, "{}, edge {} (counting from 1)", self.list, self.position as u64 + 1)
    }
}

// What stands in an answer's field where there is nothing to say.
const NOTHING: u32 = u32::MAX;

/// The error of a refused call: why, and the edge that it is about. Exactly `BadCoordinate`, `BadOrientation`, `BadBit`, `BadConfidence` and
/// `BadLikelihood` have a place: the first edge that is bad in that way, of the logical list where both have one.
#[derive(Clone, Copy, Debug, PartialEq, Eq, Hash)]
pub struct Refused {
    pub reason: Refusal,
    pub place: Option<EdgePlace>,
}

impl Refused {
    /// The reason's number.
    pub fn number(self) -> u32 {
        self.reason.number()
    }

    // What an answer's first three fields say, and none for 0, which means found.
    pub(crate) fn from_numbers(refusal: u32, list: u32, position: u32) -> Option<Refused> {
        let reason = Refusal::from_number(refusal)?;
        Some(Refused { reason, place: EdgePlace::from_numbers(list, position) })
    }
}

impl fmt::Display for Refused {
    fn fmt(&self, out: &mut fmt::Formatter) -> fmt::Result {
        write!(out, "{}", self.reason)?;
        match self.place {
            Some(place) => write!(out, ": {place}"),
            None => Ok(()),
        }
    }
}

impl Error for Refused {}
