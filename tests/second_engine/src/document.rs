//! The tables of a document and the rules of loading.
//!
//! Readings of 01:
//! - A head out of first place is refused 3 whatever its limit.
//! - The parent of a node other than node 0 is an id, so parent 255 there is refused 6.
//! - A bind's or port's child that is not yet given is refused 6. A child that is given but has
//!   another parent is refused 7, node 0 included.
//! - Which transitions a class allows is seen from the link alone, so a wrong one is refused 5.
//! - 255 is an id like any other where 01 gives it no meaning (both rules of a composite rule).
//! - Binds may repeat a pair of switch and child, also with the same rule; only a second default
//!   is refused.
//! - The port table cannot be full: a child has one parent and node 0 has none, so 64 nodes give
//!   at most 63 different ports.

use crate::event::{Action, Line, Subject, Transition};
use crate::record::Record;
use crate::refusal::{ensure, Refusal};

pub const MOST_NODES: usize = 64;
pub const MOST_ANCHORS: usize = 128;
pub const MOST_PROPERTIES: usize = 32;
pub const MOST_RULES: usize = 32;
pub const MOST_BINDS: usize = 64;
pub const MOST_PORTS: usize = 64;
pub const MOST_LINKS: usize = 64;
pub const MOST_ACTIONS: usize = 8;

/// The id that stands for no parent, the default bind, or no guard.
pub const NO_ID: u8 = 255;

#[derive(Debug, Clone, Copy, PartialEq, Eq)]
pub enum NodeKind {
    Context,
    /// Duration 0 means no natural end.
    Media {
        duration: u16,
    },
    Switch,
}

#[derive(Debug, Clone, PartialEq, Eq)]
pub struct Node {
    pub kind: NodeKind,
    pub parent: Option<usize>,
    /// The nodes that name this one as parent, ids ascending.
    pub children: Vec<usize>,
    /// The anchors of a media, ids ascending.
    pub anchors: Vec<usize>,
}

impl Node {
    pub fn is_composite(&self) -> bool {
        !matches!(self.kind, NodeKind::Media { .. })
    }
}

#[derive(Debug, Clone, Copy, PartialEq, Eq)]
pub struct Anchor {
    pub media: usize,
    pub begin: u16,
    pub end: u16,
}

#[derive(Debug, Clone, Copy, PartialEq, Eq)]
pub enum Comparator {
    Equal = 0,
    NotEqual = 1,
    Less = 2,
    Greater = 3,
    LessOrEqual = 4,
    GreaterOrEqual = 5,
}

impl Comparator {
    fn read(number: u8) -> Option<Comparator> {
        match number {
            0 => Some(Comparator::Equal),
            1 => Some(Comparator::NotEqual),
            2 => Some(Comparator::Less),
            3 => Some(Comparator::Greater),
            4 => Some(Comparator::LessOrEqual),
            5 => Some(Comparator::GreaterOrEqual),
            _ => None,
        }
    }

    pub fn holds(self, left: i32, right: i32) -> bool {
        match self {
            Comparator::Equal => left == right,
            Comparator::NotEqual => left != right,
            Comparator::Less => left < right,
            Comparator::Greater => left > right,
            Comparator::LessOrEqual => left <= right,
            Comparator::GreaterOrEqual => left >= right,
        }
    }
}

#[derive(Debug, Clone, Copy, PartialEq, Eq)]
pub enum Operator {
    And = 0,
    Or = 1,
}

impl Operator {
    fn read(number: u8) -> Option<Operator> {
        match number {
            0 => Some(Operator::And),
            1 => Some(Operator::Or),
            _ => None,
        }
    }
}

#[derive(Debug, Clone, Copy, PartialEq, Eq)]
pub enum Rule {
    Simple { property: usize, comparator: Comparator, value: i32 },
    Composite { operator: Operator, left: usize, right: usize },
}

#[derive(Debug, Clone, Copy, PartialEq, Eq)]
pub struct Bind {
    pub switch: usize,
    pub child: usize,
    /// No rule marks the default.
    pub rule: Option<usize>,
}

#[derive(Debug, Clone, Copy, PartialEq, Eq)]
pub struct Port {
    pub context: usize,
    pub child: usize,
}

#[derive(Debug, Clone, PartialEq, Eq)]
pub struct Link {
    /// Checked on loading, without effect afterwards.
    pub owner: usize,
    pub subject: Subject,
    pub transition: Transition,
    pub guard: Option<usize>,
    pub actions: Vec<Action>,
}

impl Link {
    /// Whether the line is the one that the link waits for.
    pub fn matches(&self, line: Line) -> bool {
        line == Line::Event { subject: self.subject, transition: self.transition }
    }
}

#[derive(Debug, Clone, PartialEq, Eq)]
pub struct Document {
    pub limit: u8,
    pub nodes: Vec<Node>,
    pub anchors: Vec<Anchor>,
    pub first_values: Vec<i32>,
    pub rules: Vec<Rule>,
    pub binds: Vec<Bind>,
    pub ports: Vec<Port>,
    pub links: Vec<Link>,
}

impl Document {
    /// Loads the records in order up to the first faulty one.
    pub fn load(
        mut records: impl Iterator<Item = Result<Record, Refusal>>,
    ) -> Result<Document, Refusal> {
        let first = records.next().ok_or(Refusal::WrongHead)??;
        let Record::Head { limit: limit @ 1.. } = first else {
            return Err(Refusal::WrongHead);
        };
        let mut document = Document {
            limit,
            nodes: Vec::new(),
            anchors: Vec::new(),
            first_values: Vec::new(),
            rules: Vec::new(),
            binds: Vec::new(),
            ports: Vec::new(),
            links: Vec::new(),
        };
        for record in records {
            document.add(record?)?;
        }
        ensure(!document.nodes.is_empty(), Refusal::NoNode)?;
        Ok(document)
    }

    fn add(&mut self, record: Record) -> Result<(), Refusal> {
        match record {
            Record::Head { .. } => Err(Refusal::WrongHead),
            Record::Node { node_type, parent, duration } => {
                self.add_node(node_type, parent, duration)
            }
            Record::Anchor { media, begin, end } => self.add_anchor(media, begin, end),
            Record::Property { value } => self.add_property(value),
            Record::Rule { property, comparator, value } => {
                self.add_rule(property, comparator, value)
            }
            Record::CompositeRule { operator, left, right } => {
                self.add_composite_rule(operator, left, right)
            }
            Record::Bind { switch, child, rule } => self.add_bind(switch, child, rule),
            Record::Port { context, child } => self.add_port(context, child),
            Record::Link { owner, class, subject, transition, guard } => {
                self.add_link(owner, class, subject, transition, guard)
            }
            Record::Action { action, target, value } => self.add_action(action, target, value),
        }
    }

    fn add_node(&mut self, node_type: u8, parent: u8, duration: u16) -> Result<(), Refusal> {
        room_in(&self.nodes, MOST_NODES)?;
        let kind = match (node_type, duration) {
            (0, 0) => NodeKind::Context,
            (1, duration) => NodeKind::Media { duration },
            (2, 0) => NodeKind::Switch,
            _ => return Err(Refusal::FieldOutsideValues),
        };
        let id = self.nodes.len();
        let parent = if id == 0 {
            let is_root = kind == NodeKind::Context && parent == NO_ID;
            ensure(is_root, Refusal::FieldOutsideValues)?;
            None
        } else {
            let parent = usize::from(parent);
            let node = self.nodes.get_mut(parent).ok_or(Refusal::UnknownId)?;
            ensure(node.is_composite(), Refusal::UnknownId)?;
            node.children.push(id);
            Some(parent)
        };
        self.nodes.push(Node { kind, parent, children: Vec::new(), anchors: Vec::new() });
        Ok(())
    }

    fn add_anchor(&mut self, media: u8, begin: u16, end: u16) -> Result<(), Refusal> {
        room_in(&self.anchors, MOST_ANCHORS)?;
        ensure(begin < end, Refusal::FieldOutsideValues)?;
        let media = usize::from(media);
        let node = self.nodes.get_mut(media).ok_or(Refusal::UnknownId)?;
        let NodeKind::Media { duration } = node.kind else {
            return Err(Refusal::UnknownId);
        };
        ensure(duration == 0 || end <= duration, Refusal::AgainstEarlier)?;
        node.anchors.push(self.anchors.len());
        self.anchors.push(Anchor { media, begin, end });
        Ok(())
    }

    fn add_property(&mut self, value: i32) -> Result<(), Refusal> {
        room_in(&self.first_values, MOST_PROPERTIES)?;
        self.first_values.push(value);
        Ok(())
    }

    fn add_rule(&mut self, property: u8, comparator: u8, value: i32) -> Result<(), Refusal> {
        room_in(&self.rules, MOST_RULES)?;
        let comparator = Comparator::read(comparator).ok_or(Refusal::FieldOutsideValues)?;
        let property = given_in(&self.first_values, property)?;
        self.rules.push(Rule::Simple { property, comparator, value });
        Ok(())
    }

    fn add_composite_rule(&mut self, operator: u8, left: u8, right: u8) -> Result<(), Refusal> {
        room_in(&self.rules, MOST_RULES)?;
        let operator = Operator::read(operator).ok_or(Refusal::FieldOutsideValues)?;
        let left = given_in(&self.rules, left)?;
        let right = given_in(&self.rules, right)?;
        self.rules.push(Rule::Composite { operator, left, right });
        Ok(())
    }

    fn add_bind(&mut self, switch: u8, child: u8, rule: u8) -> Result<(), Refusal> {
        room_in(&self.binds, MOST_BINDS)?;
        let switch = self.given_node(switch, NodeKind::Switch)?;
        let child = given_in(&self.nodes, child)?;
        let rule = self.given_rule(rule)?;
        ensure(self.nodes[child].parent == Some(switch), Refusal::AgainstEarlier)?;
        let has_default =
            self.binds.iter().any(|bind| bind.switch == switch && bind.rule.is_none());
        ensure(rule.is_some() || !has_default, Refusal::AgainstEarlier)?;
        self.binds.push(Bind { switch, child, rule });
        Ok(())
    }

    fn add_port(&mut self, context: u8, child: u8) -> Result<(), Refusal> {
        room_in(&self.ports, MOST_PORTS)?;
        let context = self.given_node(context, NodeKind::Context)?;
        let child = given_in(&self.nodes, child)?;
        ensure(self.nodes[child].parent == Some(context), Refusal::AgainstEarlier)?;
        let port = Port { context, child };
        ensure(!self.ports.contains(&port), Refusal::AgainstEarlier)?;
        self.ports.push(port);
        Ok(())
    }

    fn add_link(
        &mut self,
        owner: u8,
        class: u8,
        subject: u8,
        transition: u8,
        guard: u8,
    ) -> Result<(), Refusal> {
        room_in(&self.links, MOST_LINKS)?;
        let last_transition = match class {
            1 | 2 => 5,
            3 => 2,
            4 => 1,
            _ => return Err(Refusal::FieldOutsideValues),
        };
        ensure(transition <= last_transition, Refusal::FieldOutsideValues)?;
        let transition = Transition::read(transition).ok_or(Refusal::FieldOutsideValues)?;
        let owner = self.given_node(owner, NodeKind::Context)?;
        let subject = match class {
            1 => Subject::Node(given_in(&self.nodes, subject)?),
            2 => Subject::Anchor(given_in(&self.anchors, subject)?),
            3 => Subject::Property(given_in(&self.first_values, subject)?),
            _ => Subject::Key(subject),
        };
        let guard = self.given_rule(guard)?;
        self.links.push(Link { owner, subject, transition, guard, actions: Vec::new() });
        Ok(())
    }

    fn add_action(&mut self, action: u8, target: u8, value: i32) -> Result<(), Refusal> {
        if let Some(link) = self.links.last() {
            room_in(&link.actions, MOST_ACTIONS)?;
        }
        let action = Action::read(action, target, value).ok_or(Refusal::FieldOutsideValues)?;
        ensure(self.has_target(action), Refusal::UnknownId)?;
        let link = self.links.last_mut().ok_or(Refusal::UnknownId)?;
        link.actions.push(action);
        Ok(())
    }

    /// A node that must be given and of the kind.
    fn given_node(&self, id: u8, kind: NodeKind) -> Result<usize, Refusal> {
        let id = given_in(&self.nodes, id)?;
        ensure(self.nodes[id].kind == kind, Refusal::UnknownId)?;
        Ok(id)
    }

    /// A rule that must be given, or 255 for none.
    fn given_rule(&self, id: u8) -> Result<Option<usize>, Refusal> {
        if id == NO_ID {
            return Ok(None);
        }
        given_in(&self.rules, id).map(Some)
    }

    pub fn has_target(&self, action: Action) -> bool {
        match action {
            Action::OnNode { node, .. } => node < self.nodes.len(),
            Action::Set { property, .. } => property < self.first_values.len(),
        }
    }

    /// The media among the node and all below it, ids ascending.
    pub fn media_of(&self, node: usize) -> Vec<usize> {
        let mut media = Vec::new();
        self.collect_media(node, &mut media);
        media.sort_unstable();
        media
    }

    fn collect_media(&self, node: usize, media: &mut Vec<usize>) {
        if !self.nodes[node].is_composite() {
            media.push(node);
        }
        for &child in &self.nodes[node].children {
            self.collect_media(child, media);
        }
    }

    /// The switches above the node, the nearest first, each with its child on the path to the node.
    pub fn switches_above(&self, node: usize) -> Vec<(usize, usize)> {
        let mut switches = Vec::new();
        let mut child = node;
        while let Some(parent) = self.nodes[child].parent {
            if self.nodes[parent].kind == NodeKind::Switch {
                switches.push((parent, child));
            }
            child = parent;
        }
        switches
    }

    /// Whether the node is the other one or below it.
    pub fn is_within(&self, node: usize, other: usize) -> bool {
        node == other || self.nodes[node].parent.is_some_and(|parent| self.is_within(parent, other))
    }

    /// Whether the rule holds on the properties' values. Earlier rules are decided once each:
    /// deciding them anew for every mention would take a time that doubles with each rule.
    pub fn holds(&self, rule: usize, values: &[i32]) -> bool {
        let mut decided: Vec<bool> = Vec::new();
        for rule in &self.rules[..=rule] {
            decided.push(match *rule {
                Rule::Simple { property, comparator, value } => {
                    comparator.holds(values[property], value)
                }
                Rule::Composite { operator: Operator::And, left, right } => {
                    decided[left] && decided[right]
                }
                Rule::Composite { operator: Operator::Or, left, right } => {
                    decided[left] || decided[right]
                }
            });
        }
        decided[rule]
    }
}

fn room_in<T>(table: &[T], most: usize) -> Result<(), Refusal> {
    ensure(table.len() < most, Refusal::TableFull)
}

fn given_in<T>(table: &[T], id: u8) -> Result<usize, Refusal> {
    let id = usize::from(id);
    ensure(id < table.len(), Refusal::UnknownId)?;
    Ok(id)
}
