//! A session and its operations.

use std::rc::Rc;

use crate::call::Call;
use crate::document::Document;
use crate::event::State;
use crate::probe::Probe;
use crate::record::Records;
use crate::refusal::Refusal;
use crate::run::Run;

#[derive(Debug, Clone, Copy, PartialEq, Eq)]
pub struct NodeEvent {
    pub state: State,
    pub clock: u16,
    pub count: u32,
    /// The child that a start of this switch chose last.
    pub choice: Option<usize>,
}

#[derive(Debug, Clone, Copy, PartialEq, Eq)]
pub struct AnchorEvent {
    pub state: State,
    pub count: u32,
}

#[derive(Debug, Clone, Copy, PartialEq, Eq)]
pub struct PropertyEvent {
    pub value: i32,
    pub count: u32,
}

/// A session that is not broken.
#[derive(Debug, Clone, PartialEq, Eq)]
pub struct Session {
    pub(crate) document: Rc<Document>,
    pub(crate) nodes: Vec<NodeEvent>,
    pub(crate) anchors: Vec<AnchorEvent>,
    pub(crate) properties: Vec<PropertyEvent>,
}

/// What a read gives.
#[derive(Debug, Clone, Copy, PartialEq, Eq)]
pub struct Reading {
    pub state: State,
    pub value: i32,
    pub count: u32,
}

/// Loads a document; the session is a new one.
pub fn load(bytes: &[u8]) -> Result<Session, Refusal> {
    Document::load(Records::of(bytes)).map(Session::new)
}

impl Session {
    fn new(document: Document) -> Self {
        let sleeping = NodeEvent { state: State::Sleeping, clock: 0, count: 0, choice: None };
        Session {
            nodes: vec![sleeping; document.nodes.len()],
            anchors: vec![AnchorEvent { state: State::Sleeping, count: 0 }; document.anchors.len()],
            properties: document
                .first_values
                .iter()
                .map(|&value| PropertyEvent { value, count: 0 })
                .collect(),
            document: Rc::new(document),
        }
    }

    pub fn document(&self) -> &Document {
        &self.document
    }

    /// Gives the number of firings, as do the other calls.
    pub fn command(
        &mut self,
        action: u8,
        target: u8,
        value: i32,
        log: &mut [u8],
    ) -> Result<usize, Refusal> {
        self.call(Call::Command { action, target, value }, log)
    }

    pub fn key(&mut self, code: u8, log: &mut [u8]) -> Result<usize, Refusal> {
        self.call(Call::Key { code }, log)
    }

    pub fn tick(&mut self, log: &mut [u8]) -> Result<usize, Refusal> {
        self.call(Call::Tick, log)
    }

    pub fn call(&mut self, call: Call, log: &mut [u8]) -> Result<usize, Refusal> {
        self.probed_call(call, log, &mut Probe::default())
    }

    /// A call with a test's probe.
    pub fn probed_call(
        &mut self,
        call: Call,
        log: &mut [u8],
        probe: &mut Probe,
    ) -> Result<usize, Refusal> {
        log.fill(0);
        let accepted = Run::of(self, log.len() / 4, probe).perform(call)?;
        for (group, line) in log.chunks_exact_mut(4).zip(accepted.lines) {
            group.copy_from_slice(&line.bytes());
        }
        *self = accepted.session;
        Ok(accepted.firings)
    }

    pub fn read(&self, class: u8, id: u8) -> Result<Reading, Refusal> {
        let id = usize::from(id);
        let reading = match class {
            1 => self.nodes.get(id).map(|node| (node.state, 0, node.count)),
            2 => self.anchors.get(id).map(|anchor| (anchor.state, 0, anchor.count)),
            3 => self
                .properties
                .get(id)
                .map(|property| (State::Sleeping, property.value, property.count)),
            _ => return Err(Refusal::WrongArgument),
        };
        let (state, value, count) = reading.ok_or(Refusal::NoSuchTarget)?;
        Ok(Reading { state, value, count })
    }

    /// The state that the children of a composite give it.
    pub(crate) fn state_from_children(&self, composite: usize) -> State {
        let children = &self.document.nodes[composite].children;
        let has_child_in = |state| children.iter().any(|&child| self.nodes[child].state == state);
        if has_child_in(State::Occurring) {
            State::Occurring
        } else if has_child_in(State::Paused) {
            State::Paused
        } else {
            State::Sleeping
        }
    }

    pub(crate) fn values(&self) -> Vec<i32> {
        self.properties.iter().map(|property| property.value).collect()
    }
}
