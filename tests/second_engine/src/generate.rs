//! Seeded documents, damaged documents, scripts, log lengths and broken sessions.
//!
//! The generator keeps its own account of what a valid document may hold and asks the engine
//! for nothing.

use crate::call::Call;
use crate::document::{
    MOST_ACTIONS, MOST_ANCHORS, MOST_BINDS, MOST_LINKS, MOST_NODES, MOST_PORTS, MOST_PROPERTIES,
    MOST_RULES, NO_ID,
};
use crate::random::Random;
use crate::record::Record;
use crate::written::{WrittenAction, WrittenSession, NO_CHOICE};

pub(crate) const CONTEXT: u8 = 0;
pub(crate) const MEDIA: u8 = 1;
pub(crate) const SWITCH: u8 = 2;

/// A generated document: its records, and whether the generator means it to load.
pub struct Generated {
    pub bytes: Vec<u8>,
    pub is_valid: bool,
    /// How many nodes and properties it has, for the targets of scripts.
    pub nodes: usize,
    pub properties: usize,
    /// Its switches, which scripts stop and start again.
    pub switches: Vec<u8>,
}

/// How many entries a document is to get in each table, as far as there is room.
pub(crate) struct Shape {
    limit: u8,
    nodes: usize,
    anchors: usize,
    properties: usize,
    rules: usize,
    binds: usize,
    ports: usize,
    links: usize,
    actions: usize,
    /// Composites nest in the latest one.
    is_deep: bool,
    /// No switches, so that every node but the first can have a port.
    has_contexts_only: bool,
    /// Many contexts in switches, and links of theirs that start and stop switches.
    has_variants: bool,
}

impl Shape {
    pub(crate) fn small(random: &mut Random) -> Self {
        Shape {
            limit: random.pick(&[1, 2, 3, 5, 10, 20, 60, 255]),
            nodes: if random.one_in(16) { 1 } else { random.between(2, 12) },
            anchors: random.between(0, 10),
            properties: random.between(0, 3),
            rules: random.between(0, 8),
            binds: random.between(0, 8),
            ports: random.between(0, 10),
            links: random.between(0, 16),
            actions: random.between(0, 30),
            is_deep: false,
            has_contexts_only: false,
            has_variants: false,
        }
    }

    fn variants(random: &mut Random) -> Self {
        Shape {
            limit: random.pick(&[1, 2, 5, 20, 60, 255]),
            nodes: random.between(5, 20),
            properties: random.between(1, 2),
            rules: random.between(3, 6),
            links: random.between(4, 20),
            actions: random.between(4, 40),
            has_variants: true,
            ..Shape::small(random)
        }
    }

    fn deep(random: &mut Random) -> Self {
        Shape {
            nodes: random.between(20, MOST_NODES),
            binds: MOST_BINDS,
            ports: MOST_PORTS,
            is_deep: true,
            ..Shape::small(random)
        }
    }

    fn full(random: &mut Random) -> Self {
        Shape {
            limit: random.pick(&[1, 5, 30, 255]),
            nodes: MOST_NODES,
            anchors: MOST_ANCHORS,
            properties: MOST_PROPERTIES,
            rules: MOST_RULES,
            binds: MOST_BINDS,
            ports: MOST_PORTS,
            links: MOST_LINKS,
            actions: MOST_LINKS * MOST_ACTIONS,
            is_deep: random.one_in(2),
            has_contexts_only: random.one_in(3),
            has_variants: random.one_in(4),
        }
    }
}

#[derive(Clone, Copy)]
pub(crate) struct DraftNode {
    pub(crate) node_type: u8,
    pub(crate) parent: u8,
    pub(crate) duration: u16,
}

/// A valid document in the making.
#[derive(Clone, Default)]
pub(crate) struct Draft {
    pub(crate) records: Vec<Record>,
    pub(crate) nodes: Vec<DraftNode>,
    anchors: usize,
    pub(crate) properties: usize,
    pub(crate) rules: usize,
    binds: usize,
    switches_with_default: Vec<u8>,
    ports: Vec<(u8, u8)>,
    links: usize,
    actions_of_latest_link: usize,
}

impl Draft {
    fn of_shape(random: &mut Random, shape: &Shape) -> Draft {
        let mut draft = Draft::default();
        draft.records.push(Record::Head { limit: shape.limit });
        draft.add_node(random, shape);
        let mut wanted = [
            shape.nodes - 1,
            shape.anchors,
            shape.properties,
            shape.rules,
            shape.binds,
            shape.ports,
            shape.links,
            shape.actions,
        ];
        if shape.has_variants {
            // First of all, so that the binds of all nodes have rules.
            draft.add_rules_of_variants(random, shape);
            (wanted[2], wanted[3]) = (0, 0);
        }
        // Records of different tables stand between each other, more nodes to the front.
        for _ in 0..4_000 {
            let table = if random.one_in(3) { 0 } else { random.below(wanted.len()) };
            if wanted[table] == 0 {
                continue;
            }
            let is_added = match table {
                0 => draft.add_node(random, shape),
                1 => draft.add_anchor(random),
                2 => draft.add_property(random),
                3 => draft.add_rule(random),
                4 => draft.add_bind(random),
                5 => draft.add_port(random),
                6 => draft.add_link_of_shape(random, shape),
                _ => draft.add_action_of_shape(random, shape),
            };
            if is_added {
                wanted[table] -= 1;
            }
        }
        if random.one_in(4) {
            draft.add_counting_links(random);
        }
        draft
    }

    pub(crate) fn ids_of_type(&self, is_type: impl Fn(u8) -> bool) -> Vec<u8> {
        (0..self.nodes.len() as u8)
            .filter(|&id| is_type(self.nodes[usize::from(id)].node_type))
            .collect()
    }

    /// The pairs of parent and child whose parent has the type.
    fn pairs_under(&self, parent_type: u8) -> Vec<(u8, u8)> {
        (1..self.nodes.len() as u8)
            .map(|child| (self.nodes[usize::from(child)].parent, child))
            .filter(|&(parent, _)| self.nodes[usize::from(parent)].node_type == parent_type)
            .collect()
    }

    pub(crate) fn add_node(&mut self, random: &mut Random, shape: &Shape) -> bool {
        let node = if self.nodes.is_empty() {
            DraftNode { node_type: CONTEXT, parent: NO_ID, duration: 0 }
        } else {
            let composites = self.ids_of_type(|node_type| node_type != MEDIA);
            let latest = composites[composites.len() - 1];
            let mut parent = match shape.is_deep && !random.one_in(8) {
                true => latest,
                false => random.pick(&composites),
            };
            let mut node_type = match (shape.is_deep, random.below(10)) {
                (true, 0..=6) | (false, 0..=2) => random.pick(&[CONTEXT, SWITCH]),
                _ => MEDIA,
            };
            if shape.has_variants && !random.one_in(4) {
                (node_type, parent) = self.node_of_variants(random, parent);
            }
            let node_type = match (shape.has_contexts_only, node_type) {
                (true, SWITCH) => CONTEXT,
                _ => node_type,
            };
            let duration = match node_type {
                MEDIA => random.pick(&[0, 0, 1, 2, 3, 3, 4, 5, 6, 65_535]),
                _ => 0,
            };
            DraftNode { node_type, parent, duration }
        };
        self.push_node(random, shape, node);
        true
    }

    /// The type and parent of a context in a switch, of a media in such a context, or of a further
    /// switch in the given parent.
    fn node_of_variants(&self, random: &mut Random, parent: u8) -> (u8, u8) {
        let switches = self.ids_of_type(|node_type| node_type == SWITCH);
        let in_switches = self.contexts_in_switches();
        match random.below(4) {
            0 | 1 if !switches.is_empty() => (CONTEXT, random.pick(&switches)),
            2 if !in_switches.is_empty() => (MEDIA, random.pick(&in_switches)),
            _ => (SWITCH, parent),
        }
    }

    pub(crate) fn push_node(&mut self, random: &mut Random, shape: &Shape, node: DraftNode) {
        let DraftNode { node_type, parent, duration } = node;
        self.records.push(Record::Node { node_type, parent, duration });
        self.nodes.push(node);
        // Most children get their port or bind at once, so that starts reach far down.
        let without = if shape.is_deep { 32 } else { 5 };
        if self.nodes.len() > 1 && !random.one_in(without) {
            let child = self.nodes.len() as u8 - 1;
            match self.nodes[usize::from(parent)].node_type {
                SWITCH if self.binds < MOST_BINDS => self.bind(random, parent, child),
                CONTEXT => self.port(parent, child),
                _ => {}
            }
        }
    }

    fn add_anchor(&mut self, random: &mut Random) -> bool {
        let Some(media) = random.pick_any(&self.ids_of_type(|node_type| node_type == MEDIA)) else {
            return false;
        };
        let duration = usize::from(self.nodes[usize::from(media)].duration);
        let last = if duration == 0 { 65_535 } else { duration };
        let (begin, end) = match random.below(8) {
            0 => (last - 1, last),
            1 => (0, last),
            _ => {
                let begin = random.below(last.min(4));
                (begin, random.between(begin + 1, last.min(begin + 4)))
            }
        };
        self.anchors += 1;
        self.records.push(Record::Anchor { media, begin: begin as u16, end: end as u16 });
        true
    }

    fn add_property(&mut self, random: &mut Random) -> bool {
        self.push_property(random.value());
        true
    }

    pub(crate) fn push_property(&mut self, value: i32) {
        self.properties += 1;
        self.records.push(Record::Property { value });
    }

    pub(crate) fn add_rule(&mut self, random: &mut Random) -> bool {
        if self.rules > 0 && random.one_in(3) {
            self.records.push(Record::CompositeRule {
                operator: random.below(2) as u8,
                left: random.below(self.rules) as u8,
                right: random.below(self.rules) as u8,
            });
        } else if self.properties > 0 {
            self.records.push(Record::Rule {
                property: random.below(self.properties) as u8,
                comparator: random.below(6) as u8,
                value: random.value(),
            });
        } else {
            return false;
        }
        self.rules += 1;
        true
    }

    /// All properties and rules of the shape, three of the rules for one value alone.
    fn add_rules_of_variants(&mut self, random: &mut Random, shape: &Shape) {
        while self.properties < shape.properties && self.add_property(random) {}
        for value in [-1, 0, 1] {
            let property = random.below(self.properties) as u8;
            self.records.push(Record::Rule { property, comparator: 0, value });
            self.rules += 1;
        }
        while self.rules < shape.rules && self.add_rule(random) {}
    }

    fn add_bind(&mut self, random: &mut Random) -> bool {
        let Some((switch, child)) = random.pick_any(&self.pairs_under(SWITCH)) else {
            return false;
        };
        if self.binds == MOST_BINDS {
            return false;
        }
        let binds = self.binds;
        self.bind(random, switch, child);
        self.binds > binds
    }

    /// Adds a bind with a rule, or as the default if the switch has none yet.
    fn bind(&mut self, random: &mut Random, switch: u8, child: u8) {
        let may_be_default = !self.switches_with_default.contains(&switch);
        let rule = if may_be_default && (self.rules == 0 || random.one_in(3)) {
            self.switches_with_default.push(switch);
            NO_ID
        } else if self.rules > 0 {
            random.below(self.rules) as u8
        } else {
            return;
        };
        self.binds += 1;
        self.records.push(Record::Bind { switch, child, rule });
    }

    fn add_port(&mut self, random: &mut Random) -> bool {
        let mut pairs = self.pairs_under(CONTEXT);
        pairs.retain(|pair| !self.ports.contains(pair));
        let Some((context, child)) = random.pick_any(&pairs) else {
            return false;
        };
        self.port(context, child);
        true
    }

    fn port(&mut self, context: u8, child: u8) {
        self.ports.push((context, child));
        self.records.push(Record::Port { context, child });
    }

    fn add_link(&mut self, random: &mut Random) -> bool {
        let class = random.pick(&[1, 1, 1, 2, 2, 3, 3, 4]);
        let subjects = match class {
            1 => self.nodes.len(),
            2 => self.anchors,
            3 => self.properties,
            _ => 3,
        };
        if subjects == 0 {
            return false;
        }
        let guard = self.rule_or_none(random);
        let owner = random.pick(&self.ids_of_type(|node_type| node_type == CONTEXT));
        let subject = random.below(subjects) as u8;
        let transition = match class {
            1 | 2 => random.pick(&[1, 1, 2, 2, 3, 4, 4, 5, 5]),
            3 => random.pick(&[1, 2]),
            _ => 1,
        };
        self.links += 1;
        self.actions_of_latest_link = 0;
        self.records.push(Record::Link { owner, class, subject, transition, guard });
        // Some links set off themselves.
        if class == 3 && random.one_in(2) {
            let (target, value) = (subject, random.value());
            self.records.push(Record::Action { action: 6, target, value });
            self.actions_of_latest_link = 1;
        }
        true
    }

    /// With variants most links are by a key, and their owners are often in a switch.
    fn add_link_of_shape(&mut self, random: &mut Random, shape: &Shape) -> bool {
        let in_switches = self.contexts_in_switches();
        if !shape.has_variants || in_switches.is_empty() || random.one_in(3) {
            return self.add_link(random);
        }
        let (class, subject, transition) = match random.below(4) {
            0 => (1, random.below(self.nodes.len()) as u8, random.pick(&[1, 2])),
            _ => (4, random.below(3) as u8, 1),
        };
        let owner = match random.one_in(4) {
            true => 0,
            false => random.pick(&in_switches),
        };
        let guard = if random.one_in(3) { self.rule_or_none(random) } else { NO_ID };
        self.links += 1;
        self.actions_of_latest_link = 0;
        self.records.push(Record::Link { owner, class, subject, transition, guard });
        true
    }

    pub(crate) fn contexts_in_switches(&self) -> Vec<u8> {
        let mut contexts = self.ids_of_type(|node_type| node_type == CONTEXT);
        contexts.retain(|&context| self.is_in_switch(context));
        contexts
    }

    pub(crate) fn is_in_switch(&self, node: u8) -> bool {
        let parent = self.nodes[usize::from(node)].parent;
        let Some(above) = self.nodes.get(usize::from(parent)) else {
            return false;
        };
        above.node_type == SWITCH || self.is_in_switch(parent)
    }

    pub(crate) fn rule_or_none(&self, random: &mut Random) -> u8 {
        match self.rules > 0 && random.one_in(2) {
            true => random.below(self.rules) as u8,
            false => NO_ID,
        }
    }

    fn add_action(&mut self, random: &mut Random) -> bool {
        if self.links == 0 || self.actions_of_latest_link == MOST_ACTIONS {
            return false;
        }
        let record = if self.properties > 0 && random.one_in(3) {
            let target = random.below(self.properties) as u8;
            Record::Action { action: 6, target, value: random.value() }
        } else {
            let action = random.pick(&[1, 1, 2, 3, 4, 5]);
            Record::Action { action, target: random.below(self.nodes.len()) as u8, value: 0 }
        };
        self.actions_of_latest_link += 1;
        self.records.push(record);
        true
    }

    /// With variants many actions start or stop a switch or start a child of one, or stop a switch,
    /// set a property and start the switch.
    fn add_action_of_shape(&mut self, random: &mut Random, shape: &Shape) -> bool {
        let pairs = self.pairs_under(SWITCH);
        let has_room = self.links > 0 && self.actions_of_latest_link + 3 <= MOST_ACTIONS;
        if !shape.has_variants || pairs.is_empty() || !has_room || random.one_in(2) {
            return self.add_action(random);
        }
        let (switch, child) = random.pick(&pairs);
        let (property, value) = (random.below(self.properties) as u8, random.value());
        let actions: &[(u8, u8, i32)] = match random.below(6) {
            0 => &[(1, switch, 0)],
            1 => &[(2, switch, 0)],
            2 => &[(1, child, 0)],
            _ => &[(2, switch, 0), (6, property, value), (1, switch, 0)],
        };
        for &(action, target, value) in actions {
            self.records.push(Record::Action { action, target, value });
        }
        self.actions_of_latest_link += actions.len();
        true
    }

    /// Adds a link that sets a property of its own to 0 by a key, and links that count it up
    /// from there, one firing for each value, in either order of ids.
    fn add_counting_links(&mut self, random: &mut Random) {
        let length = random.between(2, 16);
        if self.properties == MOST_PROPERTIES
            || self.rules + length > MOST_RULES
            || self.links + length >= MOST_LINKS
        {
            return;
        }
        let property = self.properties as u8;
        self.add_property(random);
        self.records.push(Record::Link {
            owner: 0,
            class: 4,
            subject: random.below(3) as u8,
            transition: 1,
            guard: NO_ID,
        });
        self.records.push(Record::Action { action: 6, target: property, value: 0 });
        self.links += 1;
        let is_upward = random.one_in(2);
        for step in 0..length {
            let value = if is_upward { step } else { length - 1 - step } as i32;
            self.records.push(Record::Rule { property, comparator: 0, value });
            self.records.push(Record::Link {
                owner: 0,
                class: 3,
                subject: property,
                transition: 2,
                guard: self.rules as u8,
            });
            self.records.push(Record::Action { action: 6, target: property, value: value + 1 });
            self.rules += 1;
            self.links += 1;
            self.actions_of_latest_link = 1;
            if random.one_in(4) {
                self.add_action(random);
            }
        }
    }

    /// Fills one table and adds one entry more. The port table cannot be filled.
    fn overfill(&mut self, random: &mut Random, shape: &Shape) {
        match random.below(7) {
            0 => while self.nodes.len() <= MOST_NODES && self.add_node(random, shape) {},
            1 => {
                self.records.push(Record::Node { node_type: MEDIA, parent: 0, duration: 0 });
                self.nodes.push(DraftNode { node_type: MEDIA, parent: 0, duration: 0 });
                while self.anchors <= MOST_ANCHORS && self.add_anchor(random) {}
            }
            2 => while self.properties <= MOST_PROPERTIES && self.add_property(random) {},
            3 => {
                self.add_property(random);
                while self.rules <= MOST_RULES && self.add_rule(random) {}
            }
            4 => self.overfill_binds(random),
            5 => {
                while self.links <= MOST_LINKS {
                    self.add_link(random);
                }
            }
            _ => {
                while !self.add_link(random) {}
                while self.add_action(random) {}
                self.records.push(Record::Action { action: 1, target: 0, value: 0 });
            }
        }
    }

    fn overfill_binds(&mut self, random: &mut Random) {
        let switch = self.nodes.len() as u8;
        self.records.push(Record::Node { node_type: SWITCH, parent: 0, duration: 0 });
        self.records.push(Record::Node { node_type: MEDIA, parent: switch, duration: 0 });
        if self.rules == 0 {
            if self.properties == 0 {
                self.add_property(random);
            }
            self.add_rule(random);
        }
        while self.binds <= MOST_BINDS {
            self.binds += 1;
            self.records.push(Record::Bind { switch, child: switch + 1, rule: 0 });
        }
    }
}

/// A document of any shape, about one in four of them damaged or with one entry too many.
pub fn document(random: &mut Random) -> Generated {
    let shape = match random.below(20) {
        0..=8 => Shape::small(random),
        9..=13 => Shape::variants(random),
        14..=17 => Shape::deep(random),
        _ => Shape::full(random),
    };
    let mut draft = Draft::of_shape(random, &shape);
    let mut is_valid = true;
    if random.one_in(12) {
        let shape = Shape::small(random);
        draft = Draft::of_shape(random, &shape);
        draft.overfill(random, &shape);
        is_valid = false;
    }
    let bytes = if random.one_in(5) {
        is_valid = false;
        damaged(random, &draft.records)
    } else {
        draft.records.iter().flat_map(Record::bytes).collect()
    };
    let switches = draft.ids_of_type(|node_type| node_type == SWITCH);
    let (nodes, properties) = (draft.nodes.len(), draft.properties);
    Generated { bytes, is_valid, nodes, properties, switches }
}

/// The document's bytes with some damage, which may leave them valid.
fn damaged(random: &mut Random, records: &[Record]) -> Vec<u8> {
    let mut records: Vec<Vec<u8>> = records.iter().map(Record::bytes).collect();
    for _ in 0..random.between(1, 2) {
        let place = random.below(records.len());
        match random.below(8) {
            0 => {
                let record = records.remove(place);
                records.insert(random.below(records.len() + 1), record);
            }
            1 => records.insert(random.below(records.len() + 1), records[place].clone()),
            2 => {
                records.remove(place);
            }
            3 => {
                let kept = random.below(records[place].len() + 1);
                records[place].truncate(kept);
            }
            4 => {
                let mut record = vec![random.below(11) as u8];
                record.extend((0..random.below(7)).map(|_| random.likely_byte()));
                records.insert(place, record);
            }
            _ => {
                if let Some(at) = records[place].len().checked_sub(1) {
                    let at = random.between(0, at);
                    records[place][at] = random.likely_byte();
                }
            }
        }
        if records.is_empty() {
            break;
        }
    }
    let mut bytes = records.concat();
    if random.one_in(4) {
        bytes.truncate(random.below(bytes.len() + 1));
    }
    bytes
}

/// Bytes by themselves, each likely to be a kind or an id.
pub fn meaningless_bytes(random: &mut Random) -> Vec<u8> {
    let length = random.below(30);
    (0..length).map(|_| random.likely_byte()).collect()
}

/// One call, at times with bad arguments.
pub fn call(random: &mut Random, nodes: usize, properties: usize) -> Call {
    match random.below(16) {
        0 => Call::Key { code: random.likely_byte() },
        1 | 2 => Call::Key { code: random.below(3) as u8 },
        3..=6 => Call::Tick,
        7 => Call::Command {
            action: random.likely_byte(),
            target: random.likely_byte(),
            value: if random.one_in(2) { 0 } else { random.value() },
        },
        8 if properties > 0 => {
            let target = random.below(properties) as u8;
            Call::Command { action: 6, target, value: random.value() }
        }
        9 => Call::Command { action: 1, target: 0, value: 0 },
        _ => {
            let action = random.pick(&[1, 1, 1, 2, 3, 4, 4, 5, 5]);
            Call::Command { action, target: random.below(nodes.max(1)) as u8, value: 0 }
        }
    }
}

/// Stops a switch, sets a property and starts the switch, at times only some of these.
fn calls_on_switch(random: &mut Random, switch: u8, properties: usize) -> Vec<Call> {
    let on_switch = |action: u8| Call::Command { action, target: switch, value: 0 };
    let mut calls = vec![on_switch(random.pick(&[2, 2, 3]))];
    if properties > 0 {
        let target = random.below(properties) as u8;
        calls.push(Call::Command { action: 6, target, value: random.value() });
    }
    calls.push(on_switch(1));
    if random.one_in(2) {
        calls.remove(random.below(calls.len()));
    }
    calls.push(Call::Key { code: random.below(3) as u8 });
    calls
}

/// A list of calls that begins with a start of node 0, at times after a key, resumes much of what it
/// pauses, and starts switches again.
pub fn calls(random: &mut Random, document: &Generated, most: usize) -> Vec<Call> {
    let mut calls = vec![Call::Command { action: 1, target: 0, value: 0 }];
    if random.one_in(4) {
        calls.insert(0, Call::Key { code: random.below(3) as u8 });
    }
    for _ in 0..random.below(most) {
        if random.one_in(4) {
            if let Some(switch) = random.pick_any(&document.switches) {
                calls.extend(calls_on_switch(random, switch, document.properties));
                continue;
            }
        }
        let call = call(random, document.nodes, document.properties);
        calls.push(call);
        if let Call::Command { action: 4, target, value: 0 } = call {
            if random.one_in(2) {
                calls.push(Call::Tick);
            }
            if random.one_in(2) {
                calls.push(Call::Command { action: 5, target, value: 0 });
            }
        }
    }
    calls
}

/// A script of the calls; one in five has an unknown kind in it or is cut.
pub fn script(random: &mut Random, calls: &[Call]) -> Vec<u8> {
    let mut records: Vec<Vec<u8>> = calls.iter().map(|call| call.bytes()).collect();
    if random.one_in(10) {
        let kind = random.pick(&[0, 4, 5, 255]);
        records.insert(random.below(records.len() + 1), vec![kind]);
    }
    let mut bytes = records.concat();
    if random.one_in(10) {
        bytes.truncate(random.below(bytes.len() + 1));
    }
    bytes
}

/// A length for a log slice: often ample, often scarce, at times no whole number of lines.
pub fn log_length(random: &mut Random) -> usize {
    match random.below(10) {
        0 => 65_536,
        1..=6 => 2_048,
        7 => random.below(9),
        8 => random.below(64),
        _ => random.below(1_024),
    }
}

/// Writes a value into one field of a session, which may be broken by it.
pub fn change_field(random: &mut Random, session: &mut WrittenSession) {
    let byte = random.likely_byte();
    let word = random.pick(&[0, 1, 2, 3, 4, 5, 6, 1_000, 65_534, 65_535]);
    let number = random.pick(&[0, 1, 2, 1_000_000, u32::MAX]);
    let value = random.value();
    // A place inside the table, or now and then anywhere.
    let mut place = |count: usize, most: usize| match random.one_in(4) || count == 0 {
        true => random.below(most),
        false => random.below(count.min(most)),
    };
    let node = place(session.node_count, MOST_NODES);
    let anchor = place(session.anchor_count, MOST_ANCHORS);
    let property = place(session.property_count, MOST_PROPERTIES);
    let rule = place(session.rule_count, MOST_RULES);
    let bind = place(session.bind_count, MOST_BINDS);
    let port = place(session.port_count, MOST_PORTS);
    let link = place(session.link_count, MOST_LINKS);
    let slot = place(session.links[link].action_count, MOST_ACTIONS);
    let count = random.pick(&[0, 1, 2, 8, 9, 32, 33, 64, 65, 128, 129, 255]);
    let action: &mut WrittenAction = &mut session.links[link].actions[slot];
    match random.below(48) {
        0 => session.limit = byte,
        1 => session.node_count = count,
        2 => session.anchor_count = count,
        3 => session.property_count = count,
        4 => session.rule_count = count,
        5 => session.bind_count = count,
        6 => session.port_count = count,
        7 => session.link_count = count,
        8 => session.nodes[node].node_type = byte,
        9 => session.nodes[node].parent = byte,
        10 => session.nodes[node].duration = word,
        11 | 12 => session.nodes[node].state = byte % 4,
        13 | 14 => session.nodes[node].clock = word,
        15 => session.nodes[node].count = number,
        16 => session.anchors[anchor].media = byte,
        17 => session.anchors[anchor].begin = word,
        18 => session.anchors[anchor].end = word,
        19 | 20 => session.anchors[anchor].state = byte % 4,
        21 => session.anchors[anchor].count = number,
        22 => session.properties[property].value = value,
        23 => session.properties[property].count = number,
        24 => session.rules[rule].kind = byte,
        25 => session.rules[rule].property = byte,
        26 => session.rules[rule].comparator = byte,
        27 => session.rules[rule].value = value,
        28 => session.rules[rule].operator = byte,
        29 => session.rules[rule].left = byte,
        30 => session.rules[rule].right = byte,
        31 => session.binds[bind].switch = byte,
        32 => session.binds[bind].child = byte,
        33 => session.binds[bind].rule = byte,
        34 => session.ports[port].context = byte,
        35 => session.ports[port].child = byte,
        36 => session.links[link].owner = byte,
        37 => session.links[link].class = byte,
        38 => session.links[link].subject = byte,
        39 => session.links[link].transition = byte,
        40 => session.links[link].guard = byte,
        41 => session.links[link].action_count = count,
        42 => (action.action, action.target) = (byte, byte),
        43 => action.value = value,
        _ => change_choice(random, session),
    }
}

/// Writes another choice for a node of any type or for none: none, a child, a node near it that is
/// no child, or no node.
pub fn change_choice(random: &mut Random, session: &mut WrittenSession) {
    let nodes = &session.nodes[..session.node_count.min(MOST_NODES)];
    let given = nodes.len() as u8;
    let ids_with =
        |is_right: &dyn Fn(u8) -> bool| (0..given).filter(|&id| is_right(id)).collect::<Vec<u8>>();
    let parent_of = |id: u8| nodes[usize::from(id)].parent;
    let switches = ids_with(&|id| nodes[usize::from(id)].node_type == SWITCH);
    let places = random.pick(&[usize::from(given).max(1), MOST_NODES]);
    let place = match random.pick_any(&switches) {
        Some(switch) if !random.one_in(3) => switch,
        _ => random.below(places) as u8,
    };
    let parent = if place < given { parent_of(place) } else { NO_ID };
    let children = ids_with(&|id| parent_of(id) == place);
    let near = match random.below(6) {
        0 => children,
        1 => ids_with(&|id| id != place && parent_of(id) == parent),
        2 => ids_with(&|id| children.contains(&parent_of(id))),
        3 => vec![place, parent],
        4 => vec![given, MOST_NODES as u8, NO_ID],
        _ => vec![NO_CHOICE],
    };
    let any = random.likely_byte();
    session.nodes[usize::from(place)].choice = random.pick_any(&near).unwrap_or(any);
}
