//! The records of a document, as they stand in its bytes.

use crate::fields::Fields;
use crate::refusal::Refusal;

/// One record with its fields as written, not yet checked.
#[derive(Debug, Clone, Copy, PartialEq, Eq)]
pub enum Record {
    Head { limit: u8 },
    Node { node_type: u8, parent: u8, duration: u16 },
    Anchor { media: u8, begin: u16, end: u16 },
    Property { value: i32 },
    Rule { property: u8, comparator: u8, value: i32 },
    CompositeRule { operator: u8, left: u8, right: u8 },
    Bind { switch: u8, child: u8, rule: u8 },
    Port { context: u8, child: u8 },
    Link { owner: u8, class: u8, subject: u8, transition: u8, guard: u8 },
    Action { action: u8, target: u8, value: i32 },
}

impl Record {
    /// The record's bytes, its kind first.
    pub fn bytes(&self) -> Vec<u8> {
        match *self {
            Record::Head { limit } => vec![0, limit],
            Record::Node { node_type, parent, duration } => {
                [&[1, node_type, parent], &duration.to_le_bytes()[..]].concat()
            }
            Record::Anchor { media, begin, end } => {
                [&[2, media], &begin.to_le_bytes()[..], &end.to_le_bytes()].concat()
            }
            Record::Property { value } => [&[3], &value.to_le_bytes()[..]].concat(),
            Record::Rule { property, comparator, value } => {
                [&[4, property, comparator], &value.to_le_bytes()[..]].concat()
            }
            Record::CompositeRule { operator, left, right } => vec![5, operator, left, right],
            Record::Bind { switch, child, rule } => vec![6, switch, child, rule],
            Record::Port { context, child } => vec![7, context, child],
            Record::Link { owner, class, subject, transition, guard } => {
                vec![8, owner, class, subject, transition, guard]
            }
            Record::Action { action, target, value } => {
                [&[9, action, target], &value.to_le_bytes()[..]].concat()
            }
        }
    }

    /// The body of a record of a known kind, or nothing if the bytes end inside it.
    fn body(kind: u8, fields: &mut Fields) -> Option<Record> {
        Some(match kind {
            0 => Record::Head { limit: fields.byte()? },
            1 => Record::Node {
                node_type: fields.byte()?,
                parent: fields.byte()?,
                duration: fields.word()?,
            },
            2 => {
                Record::Anchor { media: fields.byte()?, begin: fields.word()?, end: fields.word()? }
            }
            3 => Record::Property { value: fields.integer()? },
            4 => Record::Rule {
                property: fields.byte()?,
                comparator: fields.byte()?,
                value: fields.integer()?,
            },
            5 => Record::CompositeRule {
                operator: fields.byte()?,
                left: fields.byte()?,
                right: fields.byte()?,
            },
            6 => {
                Record::Bind { switch: fields.byte()?, child: fields.byte()?, rule: fields.byte()? }
            }
            7 => Record::Port { context: fields.byte()?, child: fields.byte()? },
            8 => Record::Link {
                owner: fields.byte()?,
                class: fields.byte()?,
                subject: fields.byte()?,
                transition: fields.byte()?,
                guard: fields.byte()?,
            },
            _ => Record::Action {
                action: fields.byte()?,
                target: fields.byte()?,
                value: fields.integer()?,
            },
        })
    }
}

/// The records of a document's bytes in order. A reader stops at the first refusal.
pub struct Records<'a> {
    fields: Fields<'a>,
    latest_kind: Option<u8>,
}

impl<'a> Records<'a> {
    pub fn of(bytes: &'a [u8]) -> Self {
        Records { fields: Fields::of(bytes), latest_kind: None }
    }

    /// The kind of the record read last.
    pub fn latest_kind(&self) -> Option<u8> {
        self.latest_kind
    }
}

impl Iterator for Records<'_> {
    type Item = Result<Record, Refusal>;

    fn next(&mut self) -> Option<Self::Item> {
        let kind = self.fields.byte()?;
        self.latest_kind = Some(kind);
        if kind > 9 {
            return Some(Err(Refusal::UnknownKind));
        }
        Some(Record::body(kind, &mut self.fields).ok_or(Refusal::RecordCut))
    }
}
