//! A session as written down: flat tables that an outsider can fill with anything.
//!
//! Readings of 01's "Broken session":
//! - Tables break a load rule when the document that lists them (head, nodes, anchors,
//!   properties, rules, binds, ports, links with their actions) would be refused. The order of
//!   records of different tables is not part of a session, and this order gives every id first.
//! - A count above a table's size breaks the rule of how many entries the table may have.
//! - An action slot past its link's count of actions is an entry past a table's end.
//! - A rule's entry has a kind, 4 simple or 5 composite, and the fields of both; those that its
//!   kind does not have must be 0, as for an entry past the end.
//! - An occurrence count and a property's value may be anything.
//!
//! Readings of Req 01:
//! - A choice is the id of a node; 0 is none, for node 0 is nobody's child.
//! - Every child of a switch may be its choice, also one without a bind, whichever of them are
//!   awake and whatever the rules would choose now.
//! - A node that is not given is no switch, so what is held for it is 0.

use std::rc::Rc;

use crate::call::Call;
use crate::counts::{CheckAnswer, CountAnswer};
use crate::document::{
    Document, NodeKind, Rule, MOST_ACTIONS, MOST_ANCHORS, MOST_BINDS, MOST_LINKS, MOST_NODES,
    MOST_PORTS, MOST_PROPERTIES, MOST_RULES, NO_ID,
};
use crate::event::State;
use crate::record::Record;
use crate::refusal::{ensure, Refusal};
use crate::session::{load, AnchorEvent, NodeEvent, PropertyEvent, Reading, Session};

/// The choice of a switch that has none, and of every other node.
pub const NO_CHOICE: u8 = 0;

#[derive(Debug, Clone, Copy, PartialEq, Eq, Default)]
pub struct WrittenNode {
    pub node_type: u8,
    pub parent: u8,
    pub duration: u16,
    pub state: u8,
    pub clock: u16,
    pub count: u32,
    pub choice: u8,
}

#[derive(Debug, Clone, Copy, PartialEq, Eq, Default)]
pub struct WrittenAnchor {
    pub media: u8,
    pub begin: u16,
    pub end: u16,
    pub state: u8,
    pub count: u32,
}

#[derive(Debug, Clone, Copy, PartialEq, Eq, Default)]
pub struct WrittenProperty {
    pub value: i32,
    pub count: u32,
}

#[derive(Debug, Clone, Copy, PartialEq, Eq, Default)]
pub struct WrittenRule {
    pub kind: u8,
    pub property: u8,
    pub comparator: u8,
    pub value: i32,
    pub operator: u8,
    pub left: u8,
    pub right: u8,
}

#[derive(Debug, Clone, Copy, PartialEq, Eq, Default)]
pub struct WrittenBind {
    pub switch: u8,
    pub child: u8,
    pub rule: u8,
}

#[derive(Debug, Clone, Copy, PartialEq, Eq, Default)]
pub struct WrittenPort {
    pub context: u8,
    pub child: u8,
}

#[derive(Debug, Clone, Copy, PartialEq, Eq, Default)]
pub struct WrittenLink {
    pub owner: u8,
    pub class: u8,
    pub subject: u8,
    pub transition: u8,
    pub guard: u8,
    pub action_count: usize,
    pub actions: [WrittenAction; MOST_ACTIONS],
}

#[derive(Debug, Clone, Copy, PartialEq, Eq, Default)]
pub struct WrittenAction {
    pub action: u8,
    pub target: u8,
    pub value: i32,
}

#[derive(Debug, Clone, PartialEq, Eq)]
pub struct WrittenSession {
    pub limit: u8,
    pub node_count: usize,
    pub anchor_count: usize,
    pub property_count: usize,
    pub rule_count: usize,
    pub bind_count: usize,
    pub port_count: usize,
    pub link_count: usize,
    pub nodes: [WrittenNode; MOST_NODES],
    pub anchors: [WrittenAnchor; MOST_ANCHORS],
    pub properties: [WrittenProperty; MOST_PROPERTIES],
    pub rules: [WrittenRule; MOST_RULES],
    pub binds: [WrittenBind; MOST_BINDS],
    pub ports: [WrittenPort; MOST_PORTS],
    pub links: [WrittenLink; MOST_LINKS],
}

impl WrittenSession {
    /// The session in the answer to a refused document.
    pub fn empty() -> Self {
        WrittenSession {
            limit: 0,
            node_count: 0,
            anchor_count: 0,
            property_count: 0,
            rule_count: 0,
            bind_count: 0,
            port_count: 0,
            link_count: 0,
            nodes: [WrittenNode::default(); MOST_NODES],
            anchors: [WrittenAnchor::default(); MOST_ANCHORS],
            properties: [WrittenProperty::default(); MOST_PROPERTIES],
            rules: [WrittenRule::default(); MOST_RULES],
            binds: [WrittenBind::default(); MOST_BINDS],
            ports: [WrittenPort::default(); MOST_PORTS],
            links: [WrittenLink::default(); MOST_LINKS],
        }
    }

    /// Loads a document; a refused one gives the empty session with its refusal.
    pub fn load(bytes: &[u8]) -> (WrittenSession, Result<(), Refusal>) {
        match load(bytes) {
            Ok(session) => (WrittenSession::from(&session), Ok(())),
            Err(refusal) => (WrittenSession::empty(), Err(refusal)),
        }
    }

    pub fn is_broken(&self) -> bool {
        Session::try_from(self).is_err()
    }

    pub fn command(
        &mut self,
        action: u8,
        target: u8,
        value: i32,
        log: &mut [u8],
    ) -> Result<usize, Refusal> {
        self.call(Call::Command { action, target, value }, log)
    }

    pub fn key(&mut self, code: u8, log: &mut [u8]) -> Result<usize, Refusal> {
        self.call(Call::Key { code }, log)
    }

    pub fn tick(&mut self, log: &mut [u8]) -> Result<usize, Refusal> {
        self.call(Call::Tick, log)
    }

    pub fn call(&mut self, call: Call, log: &mut [u8]) -> Result<usize, Refusal> {
        log.fill(0);
        let mut session = Session::try_from(&*self)?;
        let firings = session.call(call, log)?;
        *self = WrittenSession::from(&session);
        Ok(firings)
    }

    pub fn read(&self, class: u8, id: u8) -> Result<Reading, Refusal> {
        Session::try_from(self)?.read(class, id)
    }

    pub fn check_counts(&self, media: u8, property: u8) -> CheckAnswer {
        Session::try_from(self)?.check_counts(media, property)
    }

    pub fn count_of(&self, anchor: u8, property: u8) -> CountAnswer {
        Session::try_from(self)?.count_of(anchor, property)
    }

    fn counts_fit(&self) -> bool {
        self.node_count <= MOST_NODES
            && self.anchor_count <= MOST_ANCHORS
            && self.property_count <= MOST_PROPERTIES
            && self.rule_count <= MOST_RULES
            && self.bind_count <= MOST_BINDS
            && self.port_count <= MOST_PORTS
            && self.link_count <= MOST_LINKS
            && self.links.iter().all(|link| link.action_count <= MOST_ACTIONS)
    }

    /// Whether all is zero past each table's end. The counts must fit.
    fn ends_are_zero(&self) -> bool {
        is_zero(&self.nodes[self.node_count..])
            && is_zero(&self.anchors[self.anchor_count..])
            && is_zero(&self.properties[self.property_count..])
            && is_zero(&self.rules[self.rule_count..])
            && is_zero(&self.binds[self.bind_count..])
            && is_zero(&self.ports[self.port_count..])
            && is_zero(&self.links[self.link_count..])
            && self.links.iter().all(|link| is_zero(&link.actions[link.action_count..]))
    }

    /// The document that lists the tables, if its rules are of kinds 4 and 5. The counts must fit.
    fn records(&self) -> Option<Vec<Record>> {
        let mut records = vec![Record::Head { limit: self.limit }];
        for node in &self.nodes[..self.node_count] {
            let WrittenNode { node_type, parent, duration, .. } = *node;
            records.push(Record::Node { node_type, parent, duration });
        }
        for anchor in &self.anchors[..self.anchor_count] {
            let WrittenAnchor { media, begin, end, .. } = *anchor;
            records.push(Record::Anchor { media, begin, end });
        }
        for property in &self.properties[..self.property_count] {
            records.push(Record::Property { value: property.value });
        }
        for rule in &self.rules[..self.rule_count] {
            records.push(rule.record()?);
        }
        for &WrittenBind { switch, child, rule } in &self.binds[..self.bind_count] {
            records.push(Record::Bind { switch, child, rule });
        }
        for &WrittenPort { context, child } in &self.ports[..self.port_count] {
            records.push(Record::Port { context, child });
        }
        for link in &self.links[..self.link_count] {
            let WrittenLink { owner, class, subject, transition, guard, .. } = *link;
            records.push(Record::Link { owner, class, subject, transition, guard });
            for &WrittenAction { action, target, value } in &link.actions[..link.action_count] {
                records.push(Record::Action { action, target, value });
            }
        }
        Some(records)
    }
}

impl WrittenRule {
    /// The rule's record, or nothing if the kind is neither 4 nor 5 or a field of the other kind
    /// is not 0.
    fn record(&self) -> Option<Record> {
        let WrittenRule { kind, property, comparator, value, operator, left, right } = *self;
        match kind {
            4 if (operator, left, right) == (0, 0, 0) => {
                Some(Record::Rule { property, comparator, value })
            }
            5 if (property, comparator, value) == (0, 0, 0) => {
                Some(Record::CompositeRule { operator, left, right })
            }
            _ => None,
        }
    }
}

fn is_zero<T: Default + PartialEq>(entries: &[T]) -> bool {
    entries.iter().all(|entry| *entry == T::default())
}

impl TryFrom<&WrittenSession> for Session {
    type Error = Refusal;

    /// Refuses every broken session.
    fn try_from(written: &WrittenSession) -> Result<Session, Refusal> {
        let broken = Refusal::BrokenSession;
        ensure(written.counts_fit() && written.ends_are_zero(), broken)?;
        let records = written.records().ok_or(broken)?;
        let document = Document::load(records.into_iter().map(Ok)).map_err(|_| broken)?;
        let nodes: Option<Vec<NodeEvent>> = written.nodes[..written.node_count]
            .iter()
            .map(|node| {
                let WrittenNode { clock, count, .. } = *node;
                let choice = (node.choice != NO_CHOICE).then_some(usize::from(node.choice));
                State::read(node.state).map(|state| NodeEvent { state, clock, count, choice })
            })
            .collect();
        let anchors: Option<Vec<AnchorEvent>> = written.anchors[..written.anchor_count]
            .iter()
            .map(|anchor| {
                let count = anchor.count;
                State::read(anchor.state).map(|state| AnchorEvent { state, count })
            })
            .collect();
        let properties = written.properties[..written.property_count]
            .iter()
            .map(|&WrittenProperty { value, count }| PropertyEvent { value, count })
            .collect();
        let session = Session {
            document: Rc::new(document),
            nodes: nodes.ok_or(broken)?,
            anchors: anchors.ok_or(broken)?,
            properties,
        };
        ensure(nodes_agree(&session) && anchors_agree(&session), broken)?;
        ensure(choices_agree(&session), broken)?;
        Ok(session)
    }
}

/// Whether each composite's state follows from its children and each clock is one that its
/// node's state and duration allow.
fn nodes_agree(session: &Session) -> bool {
    session.document.nodes.iter().enumerate().all(|(id, node)| {
        let NodeEvent { state, clock, .. } = session.nodes[id];
        match node.kind {
            NodeKind::Context | NodeKind::Switch => {
                clock == 0 && state == session.state_from_children(id)
            }
            NodeKind::Media { duration } if state.is_awake() => duration == 0 || clock < duration,
            NodeKind::Media { .. } => clock == 0,
        }
    })
}

/// Whether each anchor's state follows from its media's state and clock.
fn anchors_agree(session: &Session) -> bool {
    session.document.anchors.iter().zip(&session.anchors).all(|(anchor, event)| {
        let media = session.nodes[anchor.media];
        let is_within = anchor.begin <= media.clock && media.clock < anchor.end;
        event.state == if is_within { media.state } else { State::Sleeping }
    })
}

/// Whether each choice is held for a switch and is a child of it.
fn choices_agree(session: &Session) -> bool {
    session.document.nodes.iter().zip(&session.nodes).all(|(node, event)| match event.choice {
        None => true,
        Some(choice) => node.kind == NodeKind::Switch && node.children.contains(&choice),
    })
}

impl From<&Session> for WrittenSession {
    fn from(session: &Session) -> WrittenSession {
        let document = session.document();
        let mut written = WrittenSession::empty();
        written.limit = document.limit;
        written.node_count = document.nodes.len();
        written.anchor_count = document.anchors.len();
        written.property_count = session.properties.len();
        written.rule_count = document.rules.len();
        written.bind_count = document.binds.len();
        written.port_count = document.ports.len();
        written.link_count = document.links.len();
        for (id, (node, event)) in document.nodes.iter().zip(&session.nodes).enumerate() {
            let (node_type, duration) = match node.kind {
                NodeKind::Context => (0, 0),
                NodeKind::Media { duration } => (1, duration),
                NodeKind::Switch => (2, 0),
            };
            written.nodes[id] = WrittenNode {
                node_type,
                parent: id_or_none(node.parent),
                duration,
                state: event.state as u8,
                clock: event.clock,
                count: event.count,
                choice: event.choice.map_or(NO_CHOICE, |choice| choice as u8),
            };
        }
        for (id, (anchor, event)) in document.anchors.iter().zip(&session.anchors).enumerate() {
            written.anchors[id] = WrittenAnchor {
                media: anchor.media as u8,
                begin: anchor.begin,
                end: anchor.end,
                state: event.state as u8,
                count: event.count,
            };
        }
        for (id, event) in session.properties.iter().enumerate() {
            written.properties[id] = WrittenProperty { value: event.value, count: event.count };
        }
        for (id, rule) in document.rules.iter().enumerate() {
            written.rules[id] = match *rule {
                Rule::Simple { property, comparator, value } => WrittenRule {
                    kind: 4,
                    property: property as u8,
                    comparator: comparator as u8,
                    value,
                    ..WrittenRule::default()
                },
                Rule::Composite { operator, left, right } => WrittenRule {
                    kind: 5,
                    operator: operator as u8,
                    left: left as u8,
                    right: right as u8,
                    ..WrittenRule::default()
                },
            };
        }
        for (id, bind) in document.binds.iter().enumerate() {
            written.binds[id] = WrittenBind {
                switch: bind.switch as u8,
                child: bind.child as u8,
                rule: id_or_none(bind.rule),
            };
        }
        for (id, port) in document.ports.iter().enumerate() {
            written.ports[id] =
                WrittenPort { context: port.context as u8, child: port.child as u8 };
        }
        for (id, link) in document.links.iter().enumerate() {
            let (class, subject) = link.subject.fields();
            let entry = &mut written.links[id];
            entry.owner = link.owner as u8;
            entry.class = class;
            entry.subject = subject;
            entry.transition = link.transition as u8;
            entry.guard = id_or_none(link.guard);
            entry.action_count = link.actions.len();
            for (slot, action) in entry.actions.iter_mut().zip(&link.actions) {
                let (action, target, value) = action.fields();
                *slot = WrittenAction { action, target, value };
            }
        }
        written
    }
}

fn id_or_none(id: Option<usize>) -> u8 {
    id.map_or(NO_ID, |id| id as u8)
}
