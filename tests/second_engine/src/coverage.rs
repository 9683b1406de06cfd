//! Counters of what generated runs have met.

use std::collections::BTreeMap;

use crate::call::Call;
use crate::counts::{number_or_0, CheckAnswer, CountAnswer};
use crate::document::{
    Document, NodeKind, Rule, MOST_ACTIONS, MOST_ANCHORS, MOST_BINDS, MOST_LINKS, MOST_NODES,
    MOST_PROPERTIES, MOST_RULES,
};
use crate::printed::lines_of;
use crate::probe::{Heard, Probe, StartSeen};
use crate::record::Records;
use crate::refusal::Refusal;
use crate::written::{WrittenSession, NO_CHOICE};

/// A kind of call, without its arguments.
#[derive(Debug, Clone, Copy, PartialEq, Eq, PartialOrd, Ord)]
pub enum CallKind {
    Command,
    Key,
    Tick,
}

impl From<Call> for CallKind {
    fn from(call: Call) -> Self {
        match call {
            Call::Command { .. } => CallKind::Command,
            Call::Key { .. } => CallKind::Key,
            Call::Tick => CallKind::Tick,
        }
    }
}

#[derive(Debug, Clone, Copy, PartialEq, Eq, PartialOrd, Ord)]
pub enum Table {
    Nodes,
    Anchors,
    Properties,
    Rules,
    Binds,
    Ports,
    Links,
    Actions,
}

/// A choice that somebody wrote down for a node. The first two leave a session whole.
#[derive(Debug, Clone, Copy, PartialEq, Eq, PartialOrd, Ord)]
pub enum WrittenChoice {
    None,
    Child,
    ForContext,
    ForMedia,
    /// For a place past the table's end.
    ForNoNode,
    Itself,
    Parent,
    Sibling,
    Grandchild,
    OtherNode,
    /// An id that is not given.
    NoNode,
}

impl WrittenChoice {
    pub const ALL: [WrittenChoice; 11] = [
        WrittenChoice::None,
        WrittenChoice::Child,
        WrittenChoice::ForContext,
        WrittenChoice::ForMedia,
        WrittenChoice::ForNoNode,
        WrittenChoice::Itself,
        WrittenChoice::Parent,
        WrittenChoice::Sibling,
        WrittenChoice::Grandchild,
        WrittenChoice::OtherNode,
        WrittenChoice::NoNode,
    ];

    /// What the session holds for the place. Its tables are those of a document.
    fn at(session: &WrittenSession, place: usize) -> WrittenChoice {
        let nodes = &session.nodes[..session.node_count];
        let choice = session.nodes[place].choice;
        if choice == NO_CHOICE {
            return WrittenChoice::None;
        }
        let Some(node) = nodes.get(place) else {
            return WrittenChoice::ForNoNode;
        };
        match node.node_type {
            0 => return WrittenChoice::ForContext,
            1 => return WrittenChoice::ForMedia,
            _ => {}
        }
        let Some(chosen) = nodes.get(usize::from(choice)) else {
            return WrittenChoice::NoNode;
        };
        let above_chosen = usize::from(chosen.parent);
        if above_chosen == place {
            WrittenChoice::Child
        } else if usize::from(choice) == place {
            WrittenChoice::Itself
        } else if choice == node.parent {
            WrittenChoice::Parent
        } else if chosen.parent == node.parent {
            WrittenChoice::Sibling
        } else if usize::from(nodes[above_chosen].parent) == place {
            WrittenChoice::Grandchild
        } else {
            WrittenChoice::OtherNode
        }
    }
}

/// Something that generated runs must meet. Numbers are those of 01.
#[derive(Debug, Clone, Copy, PartialEq, Eq, PartialOrd, Ord)]
pub enum Feature {
    LoadAccepted,
    /// With the kind of the faulty record; none for an unknown kind, for no records and for no
    /// node.
    LoadRefused {
        refusal: u8,
        kind: Option<u8>,
    },
    FullTable(Table),
    DeepNesting,
    DefaultBeforeAnotherBind,
    CallRefused {
        call: CallKind,
        refusal: u8,
    },
    ReadAccepted {
        class: u8,
    },
    ReadRefused {
        refusal: u8,
    },
    NodeLine {
        node_type: u8,
        transition: u8,
    },
    /// A line of an anchor, a property, a key or a firing.
    OtherLine {
        class: u8,
        transition: u8,
    },
    LinkFired {
        class: u8,
        transition: u8,
    },
    GuardedLinkFired,
    LinkWithoutActionsFired,
    CommandWithLines {
        action: u8,
    },
    CommandWithoutLines {
        action: u8,
    },
    KeyWithoutFirings,
    TickWithoutLines,
    LinkAction {
        action: u8,
    },
    SimpleRule {
        comparator: u8,
        held: bool,
    },
    CompositeRule {
        operator: u8,
        held: bool,
    },
    SeveralFirings {
        call: CallKind,
    },
    TenFirings,
    FiringsUpToLimit,
    /// Twenty composites starting in one call.
    TwentyCompositesStarted,
    /// A line of a link's action that fired a link in its turn.
    FiringByFiring,
    LogFilled,
    LogWithPartOfAGroup,
    EmptyLogAccepted,
    /// A link whose line and guard hold and which the nearest switch that has not chosen the path
    /// holds back, with no choice or with another one.
    HeldBack {
        has_choice: bool,
    },
    /// One that the nearest switch alone holds back, and outer ones do not.
    HeldBackByNearestSwitch,
    /// One that outer switches alone hold back, and the nearest does not.
    HeldBackByOuterSwitch,
    /// One of a variant not shown: the switch that holds it back is awake.
    HeldBackByAwakeSwitch,
    /// One that would have met the limit.
    HeldBackAtLimit,
    /// A firing below so many switches, 2 for more.
    FiredBelowSwitches {
        switches: usize,
    },
    /// A firing whose owner lies below the chosen child.
    FiredBelowChosenChild,
    FiredBelowSleepingSwitch,
    /// A start of a switch that had no choice and finds a child.
    ChoiceMade {
        by_link: bool,
    },
    ChoiceChanged {
        by_link: bool,
    },
    ChoiceCleared {
        by_link: bool,
    },
    /// A start of an awake switch that has a choice.
    ChoiceKeptByAwakeSwitch {
        by_link: bool,
    },
    /// A direct start of a child that is not the choice.
    ChoiceKeptByStartOfChild {
        by_link: bool,
    },
    ChoiceWritten(WrittenChoice),
    /// A check of counts, with the first condition that fails or 0.
    CountsChecked {
        condition: u8,
    },
    CountsCheckRefused {
        refusal: u8,
    },
    CountGiven,
    /// A condition in place of an anchor's count.
    NoCount {
        condition: u8,
    },
    CountRefused {
        refusal: u8,
    },
}

impl Feature {
    /// All that must be met.
    ///
    /// Not in the list, since 01 makes it impossible:
    /// - 4 for a port (64 nodes have at most 63 different ports) and for a head (refused 3);
    /// - 5 for a head (refused 3), a property (every value is allowed), a bind and a port (all
    ///   their fields are ids);
    /// - 6 for a head and a property, which hold no id;
    /// - 7 for every record but anchor, bind and port;
    /// - 9 and 10 for key and tick, for which 01 does not give them;
    /// - 13 for load, which is handed no session.
    pub fn expected() -> Vec<Feature> {
        let mut expected = vec![
            Feature::LoadAccepted,
            Feature::DeepNesting,
            Feature::DefaultBeforeAnotherBind,
            Feature::GuardedLinkFired,
            Feature::LinkWithoutActionsFired,
            Feature::KeyWithoutFirings,
            Feature::TickWithoutLines,
            Feature::TenFirings,
            Feature::FiringsUpToLimit,
            Feature::TwentyCompositesStarted,
            Feature::FiringByFiring,
            Feature::LogFilled,
            Feature::LogWithPartOfAGroup,
            Feature::EmptyLogAccepted,
        ];
        let refused_kinds: [(u8, &[u8]); 6] = [
            (1, &[0, 1, 2, 3, 4, 5, 6, 7, 8, 9]),
            (3, &[0, 1, 2, 3, 4, 5, 6, 7, 8, 9]),
            (4, &[1, 2, 3, 4, 5, 6, 8, 9]),
            (5, &[1, 2, 4, 5, 8, 9]),
            (6, &[1, 2, 4, 5, 6, 7, 8, 9]),
            (7, &[2, 6, 7]),
        ];
        for (refusal, kinds) in refused_kinds {
            for &kind in kinds {
                expected.push(Feature::LoadRefused { refusal, kind: Some(kind) });
            }
        }
        for refusal in [2, 3, 8] {
            expected.push(Feature::LoadRefused { refusal, kind: None });
        }
        expected.extend(
            [
                Table::Nodes,
                Table::Anchors,
                Table::Properties,
                Table::Rules,
                Table::Binds,
                Table::Ports,
                Table::Links,
                Table::Actions,
            ]
            .map(Feature::FullTable),
        );
        for call in [CallKind::Command, CallKind::Key, CallKind::Tick] {
            expected.push(Feature::SeveralFirings { call });
            for refusal in [11, 12, 13] {
                expected.push(Feature::CallRefused { call, refusal });
            }
        }
        for refusal in [9, 10] {
            expected.push(Feature::CallRefused { call: CallKind::Command, refusal });
        }
        for refusal in [9, 10, 13] {
            expected.push(Feature::ReadRefused { refusal });
        }
        for class in 1..=3 {
            expected.push(Feature::ReadAccepted { class });
        }
        for transition in 1..=5 {
            for node_type in 0..=2 {
                expected.push(Feature::NodeLine { node_type, transition });
            }
            expected.push(Feature::OtherLine { class: 2, transition });
            for class in [1, 2] {
                expected.push(Feature::LinkFired { class, transition });
            }
        }
        for transition in [1, 2] {
            expected.push(Feature::OtherLine { class: 3, transition });
            expected.push(Feature::LinkFired { class: 3, transition });
        }
        expected.push(Feature::OtherLine { class: 4, transition: 1 });
        expected.push(Feature::LinkFired { class: 4, transition: 1 });
        expected.push(Feature::OtherLine { class: 5, transition: 0 });
        for action in 1..=6 {
            expected.push(Feature::CommandWithLines { action });
            expected.push(Feature::LinkAction { action });
        }
        // A set always has lines.
        for action in 1..=5 {
            expected.push(Feature::CommandWithoutLines { action });
        }
        expected.extend([
            Feature::HeldBack { has_choice: false },
            Feature::HeldBack { has_choice: true },
            Feature::HeldBackByNearestSwitch,
            Feature::HeldBackByOuterSwitch,
            Feature::HeldBackByAwakeSwitch,
            Feature::HeldBackAtLimit,
            Feature::FiredBelowSwitches { switches: 1 },
            Feature::FiredBelowSwitches { switches: 2 },
            Feature::FiredBelowChosenChild,
            Feature::FiredBelowSleepingSwitch,
        ]);
        for by_link in [false, true] {
            expected.extend([
                Feature::ChoiceMade { by_link },
                Feature::ChoiceChanged { by_link },
                Feature::ChoiceCleared { by_link },
                Feature::ChoiceKeptByAwakeSwitch { by_link },
                Feature::ChoiceKeptByStartOfChild { by_link },
            ]);
        }
        for held in [false, true] {
            for comparator in 0..6 {
                expected.push(Feature::SimpleRule { comparator, held });
            }
            for operator in 0..2 {
                expected.push(Feature::CompositeRule { operator, held });
            }
        }
        expected
    }
}

impl Feature {
    /// All that must be met where counts are looked at.
    ///
    /// Not in the list: condition 1 in place of a count, for the media of an anchor has one.
    pub fn expected_of_counts() -> Vec<Feature> {
        let mut expected = vec![Feature::CountGiven];
        for condition in 0..=7 {
            expected.push(Feature::CountsChecked { condition });
        }
        for condition in 2..=7 {
            expected.push(Feature::NoCount { condition });
        }
        for refusal in [10, 13] {
            expected.push(Feature::CountsCheckRefused { refusal });
            expected.push(Feature::CountRefused { refusal });
        }
        expected
    }

    /// All that must be met where sessions are changed by somebody.
    pub fn expected_of_written() -> Vec<Feature> {
        WrittenChoice::ALL.map(Feature::ChoiceWritten).to_vec()
    }
}

#[derive(Default)]
pub struct Coverage {
    numbers: BTreeMap<Feature, u64>,
}

impl Coverage {
    pub fn new() -> Self {
        Self::default()
    }

    pub fn meet(&mut self, feature: Feature) {
        *self.numbers.entry(feature).or_default() += 1;
    }

    /// The expected features whose counter is 0.
    pub fn missing(&self) -> Vec<Feature> {
        self.missing_of(Feature::expected())
    }

    /// The features expected where counts are looked at whose counter is 0.
    pub fn missing_of_counts(&self) -> Vec<Feature> {
        self.missing_of(Feature::expected_of_counts())
    }

    /// The features expected where sessions are changed by somebody whose counter is 0.
    pub fn missing_of_written(&self) -> Vec<Feature> {
        self.missing_of(Feature::expected_of_written())
    }

    fn missing_of(&self, mut expected: Vec<Feature>) -> Vec<Feature> {
        expected.retain(|feature| !self.numbers.contains_key(feature));
        expected
    }

    pub fn number(&self, feature: Feature) -> u64 {
        self.numbers.get(&feature).copied().unwrap_or(0)
    }

    /// Loads the document and counts how that went.
    pub fn meet_document(&mut self, bytes: &[u8]) {
        let mut records = Records::of(bytes);
        match Document::load(&mut records) {
            Ok(document) => self.meet_tables(&document),
            Err(refusal) => {
                let kind = match refusal {
                    Refusal::UnknownKind | Refusal::NoNode => None,
                    _ => records.latest_kind(),
                };
                self.meet(Feature::LoadRefused { refusal: refusal.number(), kind });
            }
        }
    }

    fn meet_tables(&mut self, document: &Document) {
        self.meet(Feature::LoadAccepted);
        let most_actions = document.links.iter().map(|link| link.actions.len()).max();
        let tables = [
            (Table::Nodes, document.nodes.len(), MOST_NODES),
            (Table::Anchors, document.anchors.len(), MOST_ANCHORS),
            (Table::Properties, document.first_values.len(), MOST_PROPERTIES),
            (Table::Rules, document.rules.len(), MOST_RULES),
            (Table::Binds, document.binds.len(), MOST_BINDS),
            (Table::Ports, document.ports.len(), MOST_NODES - 1),
            (Table::Links, document.links.len(), MOST_LINKS),
            (Table::Actions, most_actions.unwrap_or(0), MOST_ACTIONS),
        ];
        for (table, length, most) in tables {
            if length == most {
                self.meet(Feature::FullTable(table));
            }
        }
        let depth = |mut node: usize| {
            let mut depth = 0;
            while let Some(parent) = document.nodes[node].parent {
                node = parent;
                depth += 1;
            }
            depth
        };
        if (0..document.nodes.len()).any(|node| depth(node) > 20) {
            self.meet(Feature::DeepNesting);
        }
        let has_later_bind = |place: usize| {
            let switch = document.binds[place].switch;
            document.binds[place + 1..].iter().any(|bind| bind.switch == switch)
        };
        let mut places = 0..document.binds.len();
        if places.any(|place| document.binds[place].rule.is_none() && has_later_bind(place)) {
            self.meet(Feature::DefaultBeforeAnotherBind);
        }
    }

    /// Counts what a call on a session of the document gave.
    pub fn meet_call(
        &mut self,
        document: &Document,
        call: Call,
        answer: Result<usize, Refusal>,
        log: &[u8],
        probe: &Probe,
    ) {
        for &(rule, held) in &probe.decided {
            self.meet(match document.rules[rule] {
                Rule::Simple { comparator, .. } => {
                    Feature::SimpleRule { comparator: comparator as u8, held }
                }
                Rule::Composite { operator, .. } => {
                    Feature::CompositeRule { operator: operator as u8, held }
                }
            });
        }
        match answer {
            Ok(firings) => {
                self.meet_accepted(document, call, firings, log);
                let limit = usize::from(document.limit);
                probe.heard.iter().for_each(|heard| self.meet_heard(heard, limit));
                probe.starts.iter().for_each(|&(start, by_link)| self.meet_start(start, by_link));
            }
            Err(refusal) => {
                let refusal = refusal.number();
                self.meet(Feature::CallRefused { call: call.into(), refusal });
            }
        }
    }

    fn meet_accepted(&mut self, document: &Document, call: Call, firings: usize, log: &[u8]) {
        let lines = lines_of(log);
        match call {
            Call::Command { action, .. } if lines.is_empty() => {
                self.meet(Feature::CommandWithoutLines { action });
            }
            Call::Command { action, .. } => self.meet(Feature::CommandWithLines { action }),
            Call::Key { .. } if firings == 0 => self.meet(Feature::KeyWithoutFirings),
            Call::Tick if lines.is_empty() => self.meet(Feature::TickWithoutLines),
            _ => {}
        }
        if firings > 1 {
            self.meet(Feature::SeveralFirings { call: call.into() });
        }
        if firings >= 10 {
            self.meet(Feature::TenFirings);
        }
        if firings == usize::from(document.limit) {
            self.meet(Feature::FiringsUpToLimit);
        }
        if !lines.is_empty() && lines.len() == log.len() / 4 {
            self.meet(Feature::LogFilled);
        }
        if !log.len().is_multiple_of(4) && !lines.is_empty() {
            self.meet(Feature::LogWithPartOfAGroup);
        }
        if log.is_empty() {
            self.meet(Feature::EmptyLogAccepted);
        }
        self.meet_lines(document, &lines);
    }

    fn meet_lines(&mut self, document: &Document, lines: &[[u8; 4]]) {
        let is_composite_start = |&&[class, id, transition, _]: &&[u8; 4]| {
            (class, transition) == (1, 1) && document.nodes[usize::from(id)].is_composite()
        };
        if lines.iter().filter(is_composite_start).count() >= 20 {
            self.meet(Feature::TwentyCompositesStarted);
        }
        let first_fired = lines.iter().position(|line| line[0] == 5).unwrap_or(lines.len());
        for (place, &[class, id, transition, _]) in lines.iter().enumerate() {
            if class == 1 {
                let node_type = match document.nodes[usize::from(id)].kind {
                    NodeKind::Context => 0,
                    NodeKind::Media { .. } => 1,
                    NodeKind::Switch => 2,
                };
                self.meet(Feature::NodeLine { node_type, transition });
            } else {
                self.meet(Feature::OtherLine { class, transition });
            }
            if class != 5 {
                continue;
            }
            let link = &document.links[usize::from(id)];
            let (class, subject) = link.subject.fields();
            let transition = link.transition as u8;
            self.meet(Feature::LinkFired { class, transition });
            if link.guard.is_some() {
                self.meet(Feature::GuardedLinkFired);
            }
            if link.actions.is_empty() {
                self.meet(Feature::LinkWithoutActionsFired);
            }
            for action in &link.actions {
                self.meet(Feature::LinkAction { action: action.fields().0 });
            }
            // No such line stands before the first firing, so a later one set this link off.
            let line = [class, subject, transition, 0];
            if place > first_fired && !lines[..first_fired].contains(&line) {
                self.meet(Feature::FiringByFiring);
            }
        }
    }

    /// Counts how the switches above the owner let a link fire or held it back.
    fn meet_heard(&mut self, heard: &Heard, limit: usize) {
        let switches = &heard.switches;
        let holding: Vec<_> = switches.iter().filter(|switch| !switch.lets_fire()).collect();
        let Some(nearest) = switches.first() else {
            return;
        };
        if let Some(first) = holding.first() {
            self.meet(Feature::HeldBack { has_choice: first.choice.is_some() });
            if nearest.lets_fire() {
                self.meet(Feature::HeldBackByOuterSwitch);
            } else if switches.len() > 1 && holding.len() == 1 {
                self.meet(Feature::HeldBackByNearestSwitch);
            }
            if holding.iter().any(|switch| switch.is_awake) {
                self.meet(Feature::HeldBackByAwakeSwitch);
            }
            if heard.firings == limit {
                self.meet(Feature::HeldBackAtLimit);
            }
            return;
        }
        self.meet(Feature::FiredBelowSwitches { switches: switches.len().min(2) });
        if nearest.child != heard.owner {
            self.meet(Feature::FiredBelowChosenChild);
        }
        if switches.iter().any(|switch| !switch.is_awake) {
            self.meet(Feature::FiredBelowSleepingSwitch);
        }
    }

    fn meet_start(&mut self, start: StartSeen, by_link: bool) {
        self.meet(match start {
            StartSeen::OfSleepingSwitch { old: None, new: Some(_) } => {
                Feature::ChoiceMade { by_link }
            }
            StartSeen::OfSleepingSwitch { old: Some(_), new: None } => {
                Feature::ChoiceCleared { by_link }
            }
            StartSeen::OfSleepingSwitch { old, new } if old != new => {
                Feature::ChoiceChanged { by_link }
            }
            StartSeen::OfAwakeSwitch { choice: Some(_) } => {
                Feature::ChoiceKeptByAwakeSwitch { by_link }
            }
            StartSeen::OfChild { child, choice: Some(choice) } if choice != child => {
                Feature::ChoiceKeptByStartOfChild { by_link }
            }
            _ => return,
        });
    }

    /// Counts what somebody wrote down in place of one choice, if nothing else was changed. The
    /// session before is whole.
    pub fn meet_written(&mut self, before: &WrittenSession, after: &WrittenSession) {
        let mut places = (0..before.nodes.len())
            .filter(|&place| before.nodes[place].choice != after.nodes[place].choice);
        let (Some(place), None) = (places.next(), places.next()) else {
            return;
        };
        let mut with_choice = before.clone();
        with_choice.nodes[place].choice = after.nodes[place].choice;
        if with_choice == *after {
            self.meet(Feature::ChoiceWritten(WrittenChoice::at(after, place)));
        }
    }

    pub fn meet_read(&mut self, class: u8, answer: Result<(), Refusal>) {
        self.meet(match answer {
            Ok(()) => Feature::ReadAccepted { class },
            Err(refusal) => Feature::ReadRefused { refusal: refusal.number() },
        });
    }

    pub fn meet_counts(&mut self, (check, count): (CheckAnswer, CountAnswer)) {
        self.meet(match check {
            Ok(shown) => Feature::CountsChecked { condition: number_or_0(shown) },
            Err(refusal) => Feature::CountsCheckRefused { refusal: refusal.number() },
        });
        self.meet(match count {
            Ok(Ok(_)) => Feature::CountGiven,
            Ok(Err(failing)) => Feature::NoCount { condition: failing.number() },
            Err(refusal) => Feature::CountRefused { refusal: refusal.number() },
        });
    }
}
