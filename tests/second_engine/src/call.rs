//! The calls that change a session, also as records of a script.

use crate::fields::Fields;

#[derive(Debug, Clone, Copy, PartialEq, Eq)]
pub enum Call {
    Command { action: u8, target: u8, value: i32 },
    Key { code: u8 },
    Tick,
}

impl Call {
    /// The next record of a script, or nothing if it is wrong or cut.
    pub fn read(fields: &mut Fields) -> Option<Call> {
        match fields.byte()? {
            1 => Some(Call::Command {
                action: fields.byte()?,
                target: fields.byte()?,
                value: fields.integer()?,
            }),
            2 => Some(Call::Key { code: fields.byte()? }),
            3 => Some(Call::Tick),
            _ => None,
        }
    }

    /// The call as a record of a script.
    pub fn bytes(self) -> Vec<u8> {
        match self {
            Call::Command { action, target, value } => {
                [&[1, action, target], &value.to_le_bytes()[..]].concat()
            }
            Call::Key { code } => vec![2, code],
            Call::Tick => vec![3],
        }
    }
}
