//! Why a call was refused.
use crate::ffi::Coded;
use crate::NodePtr;
use std::fmt;

/// What a call answers.
pub type Result<T> = std::result::Result<T, EvalErr>;

/// The reason for a refusal. Its value as a number is the library's code.
#[derive(Clone, Copy, Debug, PartialEq, Eq, Hash)]
#[repr(u32)]
pub enum Code {
    /// The record, or a slot that must be read, is unsound; or a heap limit above 4,294,967,295.
    Unsound = 1,
    /// The heap limit is reached.
    OutOfMemory = 2,
    /// There are 62,500,000 atoms.
    TooManyAtoms = 3,
    /// There are 62,500,000 pairs.
    TooManyPairs = 4,
    /// A node that is not valid in this state.
    NotValid = 5,
    /// A pair where an atom is due; the error has that node.
    ExpectedAtom = 6,
    /// substr: the start is past the end of the atom; the error has the node.
    StartOutOfBounds = 7,
    /// substr: the end is past the end of the atom; the error has the node.
    EndOutOfBounds = 8,
    /// substr: the end lies before the start; the error has the node.
    InvalidBounds = 9,
    /// concat: the size is not that of the terms.
    InvalidSize = 10,
    /// A checkpoint to which this state cannot go back.
    NotUsable = 11,
    /// The bytes of a node lie across the end of a checkpoint's.
    InvalidRange = 12,
    /// A small number above 67,108,863.
    TooLarge = 13,
    /// More ghost pairs were to be removed than there are.
    TooFewGhosts = 14,
    /// 4,294,967,295 bytes, or this machine's memory, cannot hold the result.
    Full = 15,
    /// load: no item starts there, or the file ends within one or goes on after the root.
    BadEncoding = 17,
    /// load and save: more than 4,096 levels.
    TooDeep = 18,
    /// save: the file is longer than the room for it.
    NoSpace = 19,
}

impl Code {
    const ALL: [Code; 18] = [
        Code::Unsound,
        Code::OutOfMemory,
        Code::TooManyAtoms,
        Code::TooManyPairs,
        Code::NotValid,
        Code::ExpectedAtom,
        Code::StartOutOfBounds,
        Code::EndOutOfBounds,
        Code::InvalidBounds,
        Code::InvalidSize,
        Code::NotUsable,
        Code::InvalidRange,
        Code::TooLarge,
        Code::TooFewGhosts,
        Code::Full,
        Code::BadEncoding,
        Code::TooDeep,
        Code::NoSpace,
    ];

    /// The code as the library numbers it.
    pub fn number(self) -> u32 {
        self as u32
    }

    /// The code of a number. The library has no other (16 is its request program's); were there one, the state is not to be
    /// trusted.
    fn of(number: u32) -> Code {
        let mut all = Code::ALL.into_iter();
        all.find(|code| code.number() == number)
            .unwrap_or(Code::Unsound)
    }

    /// In words; clvm_rs's where it has such an error.
    fn words(self) -> &'static str {
        match self {
            Code::Unsound => "unsound record or slot",
            Code::OutOfMemory => "Out of Memory",
            Code::TooManyAtoms => "Too Many Atoms",
            Code::TooManyPairs => "too many pairs",
            Code::NotValid => "node not valid",
            Code::ExpectedAtom => "expected atom, got pair",
            Code::StartOutOfBounds => "substr start out of bounds",
            Code::EndOutOfBounds => "substr end out of bounds",
            Code::InvalidBounds => "substr invalid bounds",
            Code::InvalidSize => "concat passed invalid new_size",
            Code::NotUsable => "checkpoint not usable",
            Code::InvalidRange => "invalid atom byte range",
            Code::TooLarge => "small number too large",
            Code::TooFewGhosts => "fewer ghost pairs than were to be removed",
            Code::Full => "no room for the result",
            Code::BadEncoding => "bad encoding",
            Code::TooDeep => "more than 4,096 levels",
            Code::NoSpace => "no room for the file",
        }
    }
}

/// A refusal: the reason, and the node that goes with it, which is nil where the reason names none.
#[derive(Clone, Copy, Debug, PartialEq, Eq, Hash)]
pub struct EvalErr {
    /// The reason.
    pub code: Code,
    /// The node.
    pub node: NodePtr,
}

impl fmt::Display for EvalErr {
    fn fmt(&self, f: &mut fmt::Formatter<'_>) -> fmt::Result {
        f.write_str(self.code.words())
    }
}

impl std::error::Error for EvalErr {}

/// Why a program file was not loaded: the reason, and where in the file. No reason names a node.
#[derive(Clone, Copy, Debug, PartialEq, Eq, Hash)]
pub struct LoadErr {
    /// The reason.
    pub code: Code,
    /// Where the item at fault starts: how many bytes of the file lie before it.
    pub at: usize,
}

impl fmt::Display for LoadErr {
    fn fmt(&self, f: &mut fmt::Formatter<'_>) -> fmt::Result {
        write!(f, "{} at byte {}", self.code.words(), self.at)
    }
}

impl std::error::Error for LoadErr {}

/// For a program that does not tell the place.
impl From<LoadErr> for EvalErr {
    fn from(refused: LoadErr) -> EvalErr {
        EvalErr {
            code: refused.code,
            node: NodePtr::NIL,
        }
    }
}

/// An answer of the library, unless it is a refusal.
#[inline]
pub(crate) fn accepted<T: Coded>(answer: T) -> Result<T> {
    if answer.code() == 0 {
        return Ok(answer);
    }
    Err(refused(answer.code(), answer.node()))
}

/// The error of a refusal; apart, so that the way of an accepted answer is short.
#[cold]
#[inline(never)]
fn refused(code: u32, node: u32) -> EvalErr {
    EvalErr {
        code: Code::of(code),
        node: NodePtr::of(node),
    }
}
