//! The player's operations, called through the static library `probe`, on sessions as the player
//! has them: the tables of `crates/machine/src/lib.rt`, field for field.

use std::mem::MaybeUninit;

use second_engine::counts::{number_or_0, CheckAnswer, CountAnswer};
use second_engine::document::{
    MOST_ACTIONS, MOST_ANCHORS, MOST_BINDS, MOST_LINKS, MOST_NODES, MOST_PORTS, MOST_PROPERTIES,
    MOST_RULES,
};
use second_engine::{Call, Refusal};

use crate::flat::{Empty, Fields, Walk};

const ACTION_SLOTS: usize = MOST_LINKS * MOST_ACTIONS;

/// Structs of C's layout, with the walk over their fields in this order.
macro_rules! tables {
    ($(struct $table:ident { $($field:ident: $type:ty,)* })*) => {$(
        #[repr(C)]
        #[derive(Clone, Copy)]
        pub struct $table {
            $(pub $field: $type,)*
        }

        impl Fields for $table {
            fn walk(&mut self, walk: &mut Walk) {
                $(self.$field.walk(walk);)*
            }
        }
    )*};
}

tables! {
    struct Nodes {
        count: usize,
        types: [u8; MOST_NODES],
        parents: [u8; MOST_NODES],
        durations: [u16; MOST_NODES],
    }

    struct Anchors {
        count: usize,
        media: [u8; MOST_ANCHORS],
        begins: [u16; MOST_ANCHORS],
        ends: [u16; MOST_ANCHORS],
    }

    struct Rules {
        count: usize,
        kinds: [u8; MOST_RULES],
        properties: [u8; MOST_RULES],
        comparators: [u8; MOST_RULES],
        values: [i32; MOST_RULES],
        operators: [u8; MOST_RULES],
        lefts: [u8; MOST_RULES],
        rights: [u8; MOST_RULES],
    }

    struct Binds {
        count: usize,
        switches: [u8; MOST_BINDS],
        children: [u8; MOST_BINDS],
        rules: [u8; MOST_BINDS],
    }

    struct Ports {
        count: usize,
        contexts: [u8; MOST_PORTS],
        children: [u8; MOST_PORTS],
    }

    struct Links {
        count: usize,
        owners: [u8; MOST_LINKS],
        classes: [u8; MOST_LINKS],
        subjects: [u8; MOST_LINKS],
        transitions: [u8; MOST_LINKS],
        guards: [u8; MOST_LINKS],
        action_counts: [u8; MOST_LINKS],
    }

    struct Actions {
        actions: [u8; ACTION_SLOTS],
        targets: [u8; ACTION_SLOTS],
        values: [i32; ACTION_SLOTS],
    }

    struct Document {
        limit: u8,
        nodes: Nodes,
        anchors: Anchors,
        properties: usize,
        rules: Rules,
        binds: Binds,
        ports: Ports,
        links: Links,
        actions: Actions,
    }

    struct NodeEvents {
        states: [u8; MOST_NODES],
        clocks: [u16; MOST_NODES],
        counts: [u32; MOST_NODES],
    }

    struct AnchorEvents {
        states: [u8; MOST_ANCHORS],
        counts: [u32; MOST_ANCHORS],
    }

    struct PropertyEvents {
        values: [i32; MOST_PROPERTIES],
        counts: [u32; MOST_PROPERTIES],
    }

    struct State {
        nodes: NodeEvents,
        anchors: AnchorEvents,
        properties: PropertyEvents,
        choices: [u8; MOST_NODES],
    }

    struct Session {
        document: Document,
        state: State,
    }
}

#[repr(C)]
struct ReturnedSession {
    accepted: bool,
    refusal: u8,
    firings: u8,
    session: Session,
}

#[repr(C)]
struct ReturnedReading {
    accepted: bool,
    refusal: u8,
    state: u8,
    value: i32,
    count: u32,
}

/// The number of the first condition that fails, 0 for none. Fields that are not meant are 0.
#[repr(C)]
#[derive(Debug, Clone, Copy, PartialEq, Eq)]
pub struct ReturnedCheck {
    pub accepted: bool,
    pub refusal: u8,
    pub condition: u8,
}

/// The same for an anchor's media, and the anchor's count if none fails.
#[repr(C)]
#[derive(Debug, Clone, Copy, PartialEq, Eq)]
pub struct ReturnedCount {
    pub accepted: bool,
    pub refusal: u8,
    pub condition: u8,
    pub count: i32,
}

impl From<CheckAnswer> for ReturnedCheck {
    fn from(answer: CheckAnswer) -> Self {
        let (accepted, refusal) = (answer.is_ok(), answer.err().map_or(0, Refusal::number));
        ReturnedCheck { accepted, refusal, condition: answer.map_or(0, number_or_0) }
    }
}

impl From<CountAnswer> for ReturnedCount {
    fn from(answer: CountAnswer) -> Self {
        let count = answer.ok().and_then(Result::ok).unwrap_or(0);
        let check = ReturnedCheck::from(answer.map(|count| count.map(|_| ())));
        let ReturnedCheck { accepted, refusal, condition } = check;
        ReturnedCount { accepted, refusal, condition, count }
    }
}

extern "C" {
    fn probe_load(document: *const u8, length: usize) -> ReturnedSession;
    fn probe_command(
        session: Session,
        action: u8,
        target: u8,
        value: i32,
        log: *mut u8,
        length: usize,
    ) -> ReturnedSession;
    fn probe_key(session: Session, code: u8, log: *mut u8, length: usize) -> ReturnedSession;
    fn probe_tick(session: Session, log: *mut u8, length: usize) -> ReturnedSession;
    fn probe_read(session: Session, class: u8, id: u8) -> ReturnedReading;
    fn probe_check_counts(session: Session, media: u8, property: u8) -> ReturnedCheck;
    fn probe_count_of(session: Session, anchor: u8, property: u8) -> ReturnedCount;
}

/// The firings of an accepted call, or the number of the refusal.
pub type Answer = Result<usize, u8>;

/// State, value and count.
pub type Reading = (u8, i32, u32);

impl ReturnedSession {
    fn answer(&self) -> Answer {
        if self.accepted {
            Ok(usize::from(self.firings))
        } else {
            Err(self.refusal)
        }
    }
}

impl Empty for Session {
    fn empty() -> Self {
        // Safety: every field is a number or an array of numbers.
        unsafe { MaybeUninit::zeroed().assume_init() }
    }
}

impl Session {
    pub fn load(document: &[u8]) -> (Session, Answer) {
        // Safety: the slice lives through the call, which only reads it.
        let returned = unsafe { probe_load(document.as_ptr(), document.len()) };
        (returned.session, returned.answer())
    }

    /// Runs a call; the session becomes the one that it returns.
    pub fn call(&mut self, call: Call, log: &mut [u8]) -> Answer {
        let (lines, length) = (log.as_mut_ptr(), log.len());
        // Safety: the slice lives through the call, and nothing else holds it.
        let returned = unsafe {
            match call {
                Call::Command { action, target, value } => {
                    probe_command(*self, action, target, value, lines, length)
                }
                Call::Key { code } => probe_key(*self, code, lines, length),
                Call::Tick => probe_tick(*self, lines, length),
            }
        };
        *self = returned.session;
        returned.answer()
    }

    pub fn check_counts(&self, media: u8, property: u8) -> ReturnedCheck {
        // Safety: takes numbers alone.
        unsafe { probe_check_counts(*self, media, property) }
    }

    pub fn count_of(&self, anchor: u8, property: u8) -> ReturnedCount {
        // Safety: takes numbers alone.
        unsafe { probe_count_of(*self, anchor, property) }
    }

    pub fn read(&self, class: u8, id: u8) -> Result<Reading, u8> {
        // Safety: takes numbers alone.
        let returned = unsafe { probe_read(*self, class, id) };
        if returned.accepted {
            Ok((returned.state, returned.value, returned.count))
        } else {
            Err(returned.refusal)
        }
    }
}
