//! What a call came to.

use dorrivand::Refusal;

#[derive(Clone, Copy, PartialEq, Eq, Debug)]
pub enum Reply {
    Single(Result<i64, Refusal>),
    /// A run's: so many elements of a list of this length are left unwritten, and what stopped it.
    Rest {
        left: usize,
        length: usize,
        stop: Option<Refusal>,
    },
    /// A run's: so many places of a list of this length are filled, and what stopped it.
    Filled {
        filled: usize,
        length: usize,
        stop: Option<Refusal>,
    },
}

impl Reply {
    /// What refused the call, or stopped the run.
    pub fn refusal(&self) -> Option<Refusal> {
        match *self {
            Reply::Single(answer) => answer.err(),
            Reply::Rest { stop, .. } | Reply::Filled { stop, .. } => stop,
        }
    }

    /// The refusal's number, or 0.
    pub fn outcome(&self) -> u32 {
        self.refusal().map_or(0, Refusal::number)
    }

    /// Of a run how many elements it wrote or filled, and how many the list has.
    pub fn elements(&self) -> Option<(usize, usize)> {
        match *self {
            Reply::Single(_) => None,
            Reply::Rest { left, length, .. } => Some((length - left, length)),
            Reply::Filled { filled, length, .. } => Some((filled, length)),
        }
    }

    /// The number that a single call is done with.
    pub fn number(&self) -> Option<i64> {
        match *self {
            Reply::Single(answer) => answer.ok(),
            _ => None,
        }
    }

    /// Whether it is a run's that had no element to deal with.
    pub fn is_of_an_empty_list(&self) -> bool {
        self.elements().is_some_and(|(_, length)| length == 0)
    }

    /// Whether a run was stopped after some of its elements.
    pub fn stopped_midway(&self) -> bool {
        self.refusal().is_some() && self.elements().is_some_and(|(done, _)| done > 0)
    }

    /// The answer's line in a history.
    pub fn text(&self) -> String {
        match self {
            Reply::Single(Ok(number)) => format!("done {number}"),
            Reply::Single(Err(refusal)) => format!("refused {}", refusal.number()),
            Reply::Rest { left, .. } => format!("rest {left} {}", self.outcome()),
            Reply::Filled { filled, .. } => format!("filled {filled} {}", self.outcome()),
        }
    }
}
