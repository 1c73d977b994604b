//! One call of the C face with all that it is lent, and what comes back.

#[derive(Clone, Copy, PartialEq, Eq, PartialOrd, Ord, Debug)]
pub enum Call {
    Receive,
    BuildKsm,
    BuildRsi,
    Ask,
    Start,
    Load,
    Remove,
    GiveUp,
}

/// Each call with its name and the slices that it is lent, in the order of the C face.
pub const CALLS: [(Call, &str, &[&str]); 8] = [
    (Call::Receive, "receive", &["image", "text", "reply", "report"]),
    (Call::BuildKsm, "build_ksm", &["image", "partner", "request", "reply", "report"]),
    (Call::BuildRsi, "build_rsi", &["image", "partner", "service", "reply", "report"]),
    (Call::Ask, "ask", &["image", "partner", "reply", "report"]),
    (Call::Start, "start", &["own", "out", "report"]),
    (Call::Load, "load", &["image", "partner", "name", "key", "out", "report"]),
    (Call::Remove, "remove", &["image", "partner", "out", "report"]),
    (Call::GiveUp, "give_up", &["image", "partner", "report"]),
];

pub const REPORT: usize = 32;

impl Call {
    pub fn name(self) -> &'static str {
        CALLS[self as usize].1
    }

    /// The names of the slices that the call is lent.
    pub fn lent(self) -> &'static [&'static str] {
        CALLS[self as usize].2
    }
}

/// A call and every slice that it is lent, reply, out and report as they are before it.
#[derive(Clone, PartialEq, Eq, Debug)]
pub struct Case {
    pub call: Call,
    pub slices: Vec<Vec<u8>>,
}

/// The answer and every slice as it is after the call.
#[derive(Clone, PartialEq, Eq, Debug)]
pub struct Outcome {
    pub answer: u32,
    pub slices: Vec<Vec<u8>>,
}

/// What plays the card: the product behind its driver, this program itself, or a mutant of it.
pub trait Product {
    /// The outcome of the call, or in words what kept it from ending well.
    fn perform(&mut self, case: &Case) -> Result<Outcome, String>;
}

impl Case {
    /// The slice of this name; empty where the call has none.
    pub fn slice(&self, name: &str) -> &[u8] {
        self.place(name).map_or(&[], |place| &self.slices[place])
    }

    pub fn place(&self, name: &str) -> Option<usize> {
        self.call.lent().iter().position(|lent| *lent == name)
    }

    /// Where the call writes a message, a record's body or an image, if it writes any.
    pub fn room(&self) -> Option<usize> {
        self.place("reply").or(self.place("out"))
    }
}

impl Outcome {
    /// The reply's length as the report tells it.
    pub fn length(&self) -> usize {
        let report = self.report();
        usize::from(report[2]) << 8 | usize::from(report[3])
    }

    pub fn letters(&self) -> u16 {
        let report = self.report();
        u16::from(report[0]) << 8 | u16::from(report[1])
    }

    pub fn report(&self) -> &[u8] {
        &self.slices[self.slices.len() - 1]
    }
}
