//! A session as a row of bytes, the same for both engines, so that sessions can be compared and any
//! byte of one changed: every field in the order of the player's tables, the low byte of a number
//! first, a count in 8 bytes.

use second_engine::written::{WrittenAction, WrittenSession};

pub const SESSION_SIZE: usize = 6_457;

pub fn bytes_of<Session: Fields + Clone>(session: &Session) -> Vec<u8> {
    let mut bytes = Vec::with_capacity(SESSION_SIZE);
    // Walking the fields needs a place to change, though writing changes none of them.
    session.clone().walk(&mut Walk::Write(&mut bytes));
    assert_eq!(bytes.len(), SESSION_SIZE);
    bytes
}

pub fn session_of<Session: Fields + Empty>(bytes: &[u8]) -> Session {
    assert_eq!(bytes.len(), SESSION_SIZE);
    let mut session = Session::empty();
    session.walk(&mut Walk::Read(bytes));
    session
}

/// A session that is all zero.
pub trait Empty {
    fn empty() -> Self;
}

/// A number, or what is made of numbers.
pub trait Fields {
    fn walk(&mut self, walk: &mut Walk);
}

/// One walk over the fields serves both ways, so that they cannot disagree.
pub enum Walk<'a> {
    Write(&'a mut Vec<u8>),
    Read(&'a [u8]),
}

impl Walk<'_> {
    fn number<const LENGTH: usize>(&mut self, number: [u8; LENGTH]) -> [u8; LENGTH] {
        match self {
            Walk::Write(bytes) => {
                bytes.extend(number);
                number
            }
            Walk::Read(rest) => {
                let (number, after) = rest.split_first_chunk().expect("the bytes are a session's");
                *rest = after;
                *number
            }
        }
    }
}

macro_rules! numbers {
    ($($number:ty),*) => {$(
        impl Fields for $number {
            fn walk(&mut self, walk: &mut Walk) {
                *self = <$number>::from_le_bytes(walk.number(self.to_le_bytes()));
            }
        }
    )*};
}

numbers!(u8, u16, u32, i32, usize);

impl<Field: Fields, const LENGTH: usize> Fields for [Field; LENGTH] {
    fn walk(&mut self, walk: &mut Walk) {
        self.iter_mut().for_each(|field| field.walk(walk));
    }
}

/// Of some rows one field of each, then the next field of each.
macro_rules! columns {
    ($walk:ident, $rows:expr, $($field:ident),*) => {$(
        for row in $rows {
            row.$field.walk($walk);
        }
    )*};
}

impl Fields for WrittenSession {
    fn walk(&mut self, walk: &mut Walk) {
        self.limit.walk(walk);
        self.node_count.walk(walk);
        columns!(walk, &mut self.nodes, node_type, parent, duration);
        self.anchor_count.walk(walk);
        columns!(walk, &mut self.anchors, media, begin, end);
        self.property_count.walk(walk);
        self.rule_count.walk(walk);
        columns!(walk, &mut self.rules, kind, property, comparator, value, operator, left, right);
        self.bind_count.walk(walk);
        columns!(walk, &mut self.binds, switch, child, rule);
        self.port_count.walk(walk);
        columns!(walk, &mut self.ports, context, child);
        self.link_count.walk(walk);
        columns!(walk, &mut self.links, owner, class, subject, transition, guard);
        for link in &mut self.links {
            // one byte in the player
            let mut count = u8::try_from(link.action_count).expect("a byte");
            count.walk(walk);
            link.action_count = count.into();
        }
        columns!(walk, actions_of(self), action, target, value);
        columns!(walk, &mut self.nodes, state, clock, count);
        columns!(walk, &mut self.anchors, state, count);
        columns!(walk, &mut self.properties, value, count);
        columns!(walk, &mut self.nodes, choice);
    }
}

impl Empty for WrittenSession {
    fn empty() -> Self {
        WrittenSession::empty()
    }
}

fn actions_of(session: &mut WrittenSession) -> impl Iterator<Item = &mut WrittenAction> {
    session.links.iter_mut().flat_map(|link| &mut link.actions)
}
