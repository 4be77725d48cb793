//! What is asked of an allocator and what it answers, in Rust and as lines of text.

/// The highest address.
pub const M: u64 = u64::MAX;

#[derive(Clone, Copy, PartialEq, Eq, Debug, Hash)]
pub enum Policy {
    First,
    Last,
    Exact(u64),
}

/// One operation on an address allocator.
#[derive(Clone, Copy, PartialEq, Eq, Debug, Hash)]
pub enum Op {
    Allocate { size: u64, align: u64, policy: Policy },
    Free { start: u64, end: u64 },
}

/// One operation on an id allocator.
#[derive(Clone, Copy, PartialEq, Eq, Debug, Hash)]
pub enum IdOp {
    Allocate,
    Free(u32),
}

/// Why an operation is refused. The numbers up to 13 are the library's.
#[derive(Clone, Copy, PartialEq, Eq, Debug, Hash, PartialOrd, Ord)]
pub enum Reason {
    Overflow = 1,
    OutOfRange,
    AlreadyReleased,
    NeverAllocated,
    ResourceNotAvailable,
    InvalidRange,
    InvalidAlignment,
    UnalignedAddress,
    Underflow,
    InvalidSize,
    NoRoom,
    InvalidPolicy,
    NoState,
    /// Only the Rust: the state of a node cannot change so.
    StateTransition = 101,
    /// Only the Rust: a range overlaps a node of the tree.
    Overlap = 102,
    /// A number that is no reason, or an error that names other numbers than the caller's: always a failure.
    Strange = 103,
}

const REASONS: [(Reason, &str); 16] = [
    (Reason::Overflow, "overflow"),
    (Reason::OutOfRange, "out-of-range"),
    (Reason::AlreadyReleased, "already-released"),
    (Reason::NeverAllocated, "never-allocated"),
    (Reason::ResourceNotAvailable, "not-available"),
    (Reason::InvalidRange, "invalid-range"),
    (Reason::InvalidAlignment, "invalid-alignment"),
    (Reason::UnalignedAddress, "unaligned"),
    (Reason::Underflow, "underflow"),
    (Reason::InvalidSize, "invalid-size"),
    (Reason::NoRoom, "no-room"),
    (Reason::InvalidPolicy, "invalid-policy"),
    (Reason::NoState, "no-state"),
    (Reason::StateTransition, "state-transition"),
    (Reason::Overlap, "overlap"),
    (Reason::Strange, "strange"),
];

impl Reason {
    pub fn from_number(number: u32) -> Reason {
        REASONS.iter().map(|r| r.0).find(|r| *r as u32 == number).unwrap_or(Reason::Strange)
    }
}

#[derive(Clone, Copy, PartialEq, Eq, Debug, Hash)]
pub enum Answer {
    Granted(u64, u64),
    Done,
    Refused(Reason),
}

#[derive(Clone, Copy, PartialEq, Eq, Debug, Hash)]
pub enum IdAnswer {
    Id(u32),
    Refused(Reason),
}

/// A stretch of addresses, both ends included, that is free or granted as a whole.
#[derive(Clone, Copy, PartialEq, Eq, Debug, Hash, PartialOrd, Ord)]
pub struct Tile {
    pub start: u64,
    pub end: u64,
    pub free: bool,
}

fn number(text: &str) -> Result<u64, String> {
    let read = match text.strip_prefix("0x") {
        Some(hex) => u64::from_str_radix(hex, 16),
        None => text.parse(),
    };
    read.map_err(|_| format!("no number: {text}"))
}

fn reason(text: &str) -> Result<Reason, String> {
    REASONS.iter().find(|r| r.1 == text).map(|r| r.0).ok_or(format!("no reason: {text}"))
}

pub fn reason_text(reason: Reason) -> &'static str {
    REASONS.iter().find(|r| r.0 == reason).map_or("strange", |r| r.1)
}

impl std::fmt::Display for Op {
    fn fmt(&self, f: &mut std::fmt::Formatter) -> std::fmt::Result {
        match self {
            Op::Allocate { size, align, policy } => {
                write!(f, "allocate {size:#x} align {align:#x} ")?;
                match policy {
                    Policy::First => write!(f, "first"),
                    Policy::Last => write!(f, "last"),
                    Policy::Exact(at) => write!(f, "exact {at:#x}"),
                }
            }
            Op::Free { start, end } => write!(f, "free {start:#x} {end:#x}"),
        }
    }
}

impl std::fmt::Display for IdOp {
    fn fmt(&self, f: &mut std::fmt::Formatter) -> std::fmt::Result {
        match self {
            IdOp::Allocate => write!(f, "allocate-id"),
            IdOp::Free(id) => write!(f, "free-id {id}"),
        }
    }
}

impl std::fmt::Display for Answer {
    fn fmt(&self, f: &mut std::fmt::Formatter) -> std::fmt::Result {
        match self {
            Answer::Granted(start, end) => write!(f, "granted {start:#x} {end:#x}"),
            Answer::Done => write!(f, "done"),
            Answer::Refused(r) => write!(f, "{}", reason_text(*r)),
        }
    }
}

impl std::fmt::Display for IdAnswer {
    fn fmt(&self, f: &mut std::fmt::Formatter) -> std::fmt::Result {
        match self {
            IdAnswer::Id(id) => write!(f, "id {id}"),
            IdAnswer::Refused(r) => write!(f, "{}", reason_text(*r)),
        }
    }
}

/// A line of a file of sequences: what is asked, without the answer.
#[derive(Clone, Debug, PartialEq)]
pub enum Asked {
    New { base: u64, size: u64 },
    On(Op),
    NewIds { lowest: u32, highest: u32 },
    OnIds(IdOp),
}

pub fn parse_asked(text: &str) -> Result<Asked, String> {
    let w: Vec<&str> = text.split_whitespace().collect();
    let small = |t: &str| number(t).and_then(|n| u32::try_from(n).map_err(|_| format!("no id: {t}")));
    let policy = |w: &[&str]| match w {
        ["first"] => Ok(Policy::First),
        ["last"] => Ok(Policy::Last),
        ["exact", at] => Ok(Policy::Exact(number(at)?)),
        _ => Err(format!("no policy: {text}")),
    };
    Ok(match w.as_slice() {
        ["pool", base, "size", size] => Asked::New { base: number(base)?, size: number(size)? },
        ["allocate", size, "align", align, rest @ ..] => {
            Asked::On(Op::Allocate { size: number(size)?, align: number(align)?, policy: policy(rest)? })
        }
        ["free", start, end] => Asked::On(Op::Free { start: number(start)?, end: number(end)? }),
        ["ids", lowest, "to", highest] => Asked::NewIds { lowest: small(lowest)?, highest: small(highest)? },
        ["allocate-id"] => Asked::OnIds(IdOp::Allocate),
        ["free-id", id] => Asked::OnIds(IdOp::Free(small(id)?)),
        _ => return Err(format!("not understood: {text}")),
    })
}

pub fn parse_answer(text: &str) -> Result<Answer, String> {
    let w: Vec<&str> = text.split_whitespace().collect();
    match w.as_slice() {
        ["granted", start, end] => Ok(Answer::Granted(number(start)?, number(end)?)),
        ["done"] => Ok(Answer::Done),
        [r] => Ok(Answer::Refused(reason(r)?)),
        _ => Err(format!("no answer: {text}")),
    }
}

pub fn parse_id_answer(text: &str) -> Result<IdAnswer, String> {
    let w: Vec<&str> = text.split_whitespace().collect();
    match w.as_slice() {
        ["id", id] => Ok(IdAnswer::Id(number(id)? as u32)),
        [r] => Ok(IdAnswer::Refused(reason(r)?)),
        _ => Err(format!("no answer: {text}")),
    }
}
