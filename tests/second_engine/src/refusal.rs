//! The numbered refusals.

/// Why an operation was refused.
#[derive(Debug, Clone, Copy, PartialEq, Eq, PartialOrd, Ord)]
pub enum Refusal {
    /// The bytes end inside a record.
    RecordCut = 1,
    /// A record's kind is above 9.
    UnknownKind = 2,
    /// No head in first place, a head elsewhere, or limit 0.
    WrongHead = 3,
    /// The record's table is full.
    TableFull = 4,
    /// A field is outside its values.
    FieldOutsideValues = 5,
    /// An id is not yet given or of the wrong type.
    UnknownId = 6,
    /// The record goes against an earlier one.
    AgainstEarlier = 7,
    /// The document has no node.
    NoNode = 8,
    /// An argument of a command or a read is outside its values.
    WrongArgument = 9,
    /// No such target or id.
    NoSuchTarget = 10,
    /// A link would fire beyond the firing limit.
    FiringLimit = 11,
    /// A line does not fit in the log slice.
    LogFull = 12,
    /// The session handed in is broken.
    BrokenSession = 13,
}

impl Refusal {
    pub fn number(self) -> u8 {
        self as u8
    }
}

/// Gives the refusal unless the condition holds.
pub(crate) fn ensure(condition: bool, refusal: Refusal) -> Result<(), Refusal> {
    if condition {
        Ok(())
    } else {
        Err(refusal)
    }
}
