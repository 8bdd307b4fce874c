//! Document 01's refusals, and those of the change requests.
use std::error::Error;
use std::fmt;

/// Why a call was refused. The number of a case is document 01's, from 18 on a change request's.
#[repr(u64)]
#[derive(Clone, Copy, Debug, PartialEq, Eq, Hash)]
pub enum Refusal {
    /// Depth n not 1..40.
    Depth = 1,
    /// Memory level m over min(n, 14).
    MemoryLevel = 2,
    /// Store short.
    ShortStore = 3,
    /// A state that cannot be continued, one of an edition that does not exist among them, or a record of numbers that no run has.
    State = 4,
    /// Over 2^61 − 1 bytes to hash in all.
    TooManyBytes = 5,
    /// A leaf's position 2^n or more.
    LeafPosition = 6,
    /// Output short.
    ShortOutput = 7,
    /// A challenge, or a count of them or of leaves compared, not 1..200; over 200 leaves planned.
    Count = 8,
    /// Statement, depth or count not those wanted.
    NotWanted = 9,
    /// Bytes end, or are too few.
    BytesEnd = 10,
    /// A number of a file or record not in its shortest form, or too long.
    NotShortest = 11,
    /// Edition neither 1 nor 2.
    Edition = 12,
    /// Bytes too many.
    BytesLeft = 13,
    /// Leaf label wrong.
    LeafLabel = 14,
    /// Root wrong.
    Root = 15,
    /// List short.
    ShortList = 16,
    /// Input of the planning program; no call of this crate gives it.
    Input = 17,
    /// The record's length is not what its numbers require.
    RecordLength = 18,
    /// Not 1 to 8 runs in a unit, or the run named as served last not among them.
    Runs = 21,
}

impl Refusal {
    /// All of them, in the order of their numbers.
    pub const ALL: [Refusal; 19] = [
        Refusal::Depth,
        Refusal::MemoryLevel,
        Refusal::ShortStore,
        Refusal::State,
        Refusal::TooManyBytes,
        Refusal::LeafPosition,
        Refusal::ShortOutput,
        Refusal::Count,
        Refusal::NotWanted,
        Refusal::BytesEnd,
        Refusal::NotShortest,
        Refusal::Edition,
        Refusal::BytesLeft,
        Refusal::LeafLabel,
        Refusal::Root,
        Refusal::ShortList,
        Refusal::Input,
        Refusal::RecordLength,
        Refusal::Runs,
    ];

    /// Its number.
    pub const fn number(self) -> u64 {
        self as u64
    }

    /// The refusal of a number.
    pub fn from_number(number: u64) -> Option<Refusal> {
        Refusal::ALL.into_iter().find(|refusal| refusal.number() == number)
    }

    fn text(self) -> &'static str {
        match self {
            Refusal::Depth => "depth not 1 to 40",
            Refusal::MemoryLevel => "memory level over the depth or 14",
            Refusal::ShortStore => "store short",
            Refusal::State => "state that cannot be continued",
            Refusal::TooManyBytes => "over 2^61 - 1 bytes to hash",
            Refusal::LeafPosition => "leaf position not of this depth",
            Refusal::ShortOutput => "output short",
            Refusal::Count => "challenge or count out of range, at most 200",
            Refusal::NotWanted => "statement, depth or count not those wanted",
            Refusal::BytesEnd => "bytes too few",
            Refusal::NotShortest => "number not in its shortest form",
            Refusal::Edition => "edition neither 1 nor 2",
            Refusal::BytesLeft => "bytes too many",
            Refusal::LeafLabel => "leaf label wrong",
            Refusal::Root => "root wrong",
            Refusal::ShortList => "list short",
            Refusal::Input => "planning input wrong",
            Refusal::RecordLength => "record length not what its numbers require",
            Refusal::Runs => "not 1 to 8 runs, or the run served last not among them",
        }
    }
}

impl fmt::Display for Refusal {
    fn fmt(&self, f: &mut fmt::Formatter<'_>) -> fmt::Result {
        write!(f, "{} (refusal {})", self.text(), self.number())
    }
}

impl Error for Refusal {}

/// A refused check of a file: the refusal, with the opening that it was found in, from 1, or 0 outside openings.
#[derive(Clone, Copy, Debug, PartialEq, Eq, Hash)]
pub struct Rejected {
    pub refusal: Refusal,
    pub opening: u8,
}

impl Rejected {
    /// Document 01's one number: 256 × refusal + opening.
    pub const fn code(self) -> u64 {
        256 * self.refusal.number() + self.opening as u64
    }
}

impl fmt::Display for Rejected {
    fn fmt(&self, f: &mut fmt::Formatter<'_>) -> fmt::Result {
        match self.opening {
            0 => self.refusal.fmt(f),
            i => write!(f, "opening {}: {}", i, self.refusal),
        }
    }
}

impl Error for Rejected {}

/// The number that the library answered, as a result.
pub(crate) fn answered<A>(refusal: u64, answer: A) -> Result<A, Refusal> {
    match refusal {
        0 => Ok(answer),
        number => Err(known(number)),
    }
}

/// A check's one number, as a result.
pub(crate) fn checked(code: u64) -> Result<(), Rejected> {
    match code {
        0 => Ok(()),
        code => Err(Rejected { refusal: known(code / 256), opening: (code % 256) as u8 }),
    }
}

fn known(number: u64) -> Refusal {
    Refusal::from_number(number).expect("the library gives the numbers of refusals only")
}
