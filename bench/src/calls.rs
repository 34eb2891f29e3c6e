//! The calls that are measured and those that lead up to them, as data, so that one list of them is made of every build and of the twin alike.

/// What is lent to a call: store, tables, an image buffer and one of form 1, and to a run the list that it fills and the place for what stopped it.
#[derive(Clone, PartialEq)]
pub struct Lent {
    pub store: Vec<u32>,
    pub tables: Vec<u32>,
    pub image: Vec<u32>,
    pub old: Vec<u32>,
    pub list: Vec<u32>,
    pub place: u32,
}

/// A user and an entry.
pub type At = (u32, u32);

/// "Sensors deliver forty readings together"
pub const DELIVERED: u32 = 40;

#[derive(Clone, Debug)]
pub enum Call {
    Save,
    Load,
    /// Moves the image of form 1 up into the image buffer, as over a store of so many segments; or the image down into that of form 1.
    Up(u32),
    Down(u32),
    Tidy,
    Free(u32),
    New(At, u32),
    Work(At, Vec<u8>),
    Read(At, Vec<u8>),
    Rename(At, Vec<u8>),
    Close(At),
    Public(At),
    Abandon(At),
    Pointer(At, u32),
    Write(At, u32, u32),
    Next(At, u32),
    Prev(At, u32),
    WriteSigned(At, u32, i32),
    NextSigned(At, u32),
    PrevSigned(At, u32),
    Value(At, u32),
    Claim(At),
    WriteRun(At, u32, Vec<u32>),
    /// Fills so many elements of the lent list.
    FillRun(At, u32, usize),
}

impl Call {
    /// A write, next or prev of one element.
    pub fn is_access(&self) -> bool {
        matches!(self, Call::Write(..) | Call::Next(..) | Call::Prev(..)) || self.is_signed()
    }

    pub fn is_signed(&self) -> bool {
        matches!(self, Call::WriteSigned(..) | Call::NextSigned(..) | Call::PrevSigned(..))
    }

    /// Of a run, the first of the single calls that it stands for.
    pub fn single(&self) -> Option<Call> {
        match *self {
            Call::WriteRun(at, pointer, ref list) => Some(Call::Write(at, pointer, list.first().copied().unwrap_or(0))),
            Call::FillRun(at, pointer, _) => Some(Call::Next(at, pointer)),
            _ => None,
        }
    }

    /// How many elements a run came to, by its answer.
    pub fn came_to(&self, answer: i64) -> u64 {
        match self {
            Call::WriteRun(_, _, list) => list.len() as u64 - answer as u64,
            _ => answer as u64,
        }
    }
}

/// Makes a call. Done with n is n, which is below zero for some signed calls; a run answers how many elements it left unwritten, or how many it filled.
pub type Performer = fn(&Call, &mut Lent) -> i64;

/// The answer refused with n.
pub const fn refused(number: u32) -> i64 {
    (1 << 32) + number as i64
}

pub fn is_done(answer: i64) -> bool {
    answer < refused(0)
}

/// The number of the refusal that a call was answered with or that stopped a run, 0 where there was none.
pub fn refusal(call: &Call, answer: i64, after: &Lent) -> u32 {
    match call {
        _ if !is_done(answer) => answer as u32,
        Call::WriteRun(..) | Call::FillRun(..) => after.place,
        _ => 0,
    }
}

/// No answer: whoever was asked does not have the call. No call's answer is this number, and no decision's is its lower half.
pub const ABSENT: i64 = i64::MAX;
