//! Seeded reports that show the counts of a media in a property, changes of them by which chosen
//! conditions fail, and lists of calls for both.
//!
//! The generator keeps its own account of each anchor's count and of the condition that each
//! change makes fail, and asks the engine for nothing.

use crate::call::Call;
use crate::document::{MOST_ACTIONS, MOST_NODES, MOST_PROPERTIES, NO_ID};
use crate::generate::{self, Draft, DraftNode, Shape, CONTEXT, MEDIA, SWITCH};
use crate::random::Random;
use crate::record::Record;
use crate::written::WrittenAction;

const OF_NODE: u8 = 1;
const OF_ANCHOR: u8 = 2;
const OF_PROPERTY: u8 = 3;
const OF_KEY: u8 = 4;

const STARTS: u8 = 1;

const START: u8 = 1;
const STOP: u8 = 2;
const PAUSE: u8 = 4;
const RESUME: u8 = 5;
const SET: u8 = 6;

#[derive(Clone, Copy)]
struct ReportAnchor {
    media: u8,
    begin: u16,
    end: u16,
}

#[derive(Clone)]
struct ReportLink {
    owner: u8,
    /// Class, id and transition of the line for which the link waits.
    event: [u8; 3],
    guard: u8,
    actions: Vec<WrittenAction>,
}

/// A report that shows the counts of the media in the property, unless it was changed.
#[derive(Clone)]
pub struct CountReport {
    pub media: u8,
    pub property: u8,
    /// The anchors of the media, each with its count.
    pub counts: Vec<(u8, i32)>,
    /// Another media, without natural end.
    other_media: u8,
    /// Head, properties, rules, nodes, binds and ports.
    draft: Draft,
    anchors: Vec<ReportAnchor>,
    links: Vec<ReportLink>,
}

impl CountReport {
    pub fn new(random: &mut Random) -> CountReport {
        let is_large = random.one_in(8);
        let intervals = intervals(random);
        let last_end = intervals[intervals.len() - 1].1;
        let mut draft = Draft::default();
        draft.records.push(Record::Head { limit: random.pick(&[1, 2, 5, 20, 60, 255, 255]) });
        let properties = random.between(2, if is_large { MOST_PROPERTIES } else { 4 });
        let first_values: Vec<i32> = (0..properties).map(|_| random.value()).collect();
        first_values.iter().for_each(|&value| draft.push_property(value));
        for _ in 0..random.between(1, 4) {
            draft.add_rule(random);
        }
        let nodes =
            if is_large { random.between(40, MOST_NODES - 2) } else { random.between(3, 9) };
        let media =
            if is_large { nodes - random.between(1, 8) } else { random.between(1, nodes - 1) };
        let other_media = 1 + (media + random.below(nodes - 2)) % (nodes - 1);
        let shape = Shape::small(random);
        for id in 0..nodes {
            let duration = match id {
                _ if id == media => random.pick(&[0, last_end, last_end + 1, last_end + 5]),
                _ if id == other_media => 0,
                _ => {
                    draft.add_node(random, &shape);
                    continue;
                }
            };
            let parent = random.pick(&draft.ids_of_type(|node_type| node_type != MEDIA));
            draft.push_node(random, &shape, DraftNode { node_type: MEDIA, parent, duration });
        }
        // A context in a switch, for owners.
        let mut parent = random.pick(&draft.ids_of_type(|node_type| node_type != MEDIA));
        for node_type in [SWITCH, CONTEXT] {
            draft.push_node(random, &shape, DraftNode { node_type, parent, duration: 0 });
            parent = draft.nodes.len() as u8 - 1;
        }
        let property = random.below(properties);
        let mut report = CountReport {
            media: media as u8,
            property: property as u8,
            counts: Vec::new(),
            other_media: other_media as u8,
            draft,
            anchors: Vec::new(),
            links: Vec::new(),
        };
        report.add_anchors(random, &intervals, first_values[property]);
        for (anchor, count) in report.counts.clone() {
            report.add_count_link(random, anchor, count);
        }
        for _ in 0..random.below(8) {
            report.add_other_link(random);
        }
        if random.one_in(3) {
            report.add_restart(random);
        }
        report
    }

    pub fn bytes(&self) -> Vec<u8> {
        let mut records = self.draft.records.clone();
        for &ReportAnchor { media, begin, end } in &self.anchors {
            records.push(Record::Anchor { media, begin, end });
        }
        for &ReportLink { owner, event, guard, ref actions } in &self.links {
            let [class, subject, transition] = event;
            records.push(Record::Link { owner, class, subject, transition, guard });
            for &WrittenAction { action, target, value } in actions {
                records.push(Record::Action { action, target, value });
            }
        }
        records.iter().flat_map(Record::bytes).collect()
    }

    /// The media's anchors, each with a count of its own, and some of the other media between them.
    fn add_anchors(&mut self, random: &mut Random, intervals: &[(u16, u16)], first_value: i32) {
        let step = random.pick(&[1, -1, 50, 1_000_003]);
        let mut count = first_value;
        let mut anchors = Vec::new();
        for &(begin, end) in intervals {
            count = count.wrapping_add(step);
            let anchor = ReportAnchor { media: self.media, begin, end };
            insert_anywhere(random, &mut anchors, (anchor, Some(count)));
        }
        for _ in 0..random.below(5) {
            let begin = random.below(6) as u16;
            let end = begin + random.between(1, 4) as u16;
            let anchor = ReportAnchor { media: self.other_media, begin, end };
            insert_anywhere(random, &mut anchors, (anchor, None));
        }
        for (id, (anchor, count)) in anchors.into_iter().enumerate() {
            self.anchors.push(anchor);
            self.counts.extend(count.map(|count| (id as u8, count)));
        }
    }

    /// An action that sets another property or acts on a node.
    fn other_action(&self, random: &mut Random) -> WrittenAction {
        match random.one_in(3) {
            true => self.set_of_other_property(random),
            false => on_node(random.between(1, 5) as u8, self.target(random)),
        }
    }

    fn set_of_other_property(&self, random: &mut Random) -> WrittenAction {
        let properties = self.draft.properties;
        let other = usize::from(self.property) + random.between(1, properties - 1);
        set((other % properties) as u8, random.value())
    }

    /// A node for commands and actions, often the media.
    fn target(&self, random: &mut Random) -> u8 {
        match random.below(4) {
            0 | 1 => self.media,
            2 => self.draft.nodes[usize::from(self.media)].parent,
            _ => random.below(self.draft.nodes.len()) as u8,
        }
    }

    fn add_count_link(&mut self, random: &mut Random, anchor: u8, count: i32) {
        let others = if random.one_in(20) { 7 } else { random.pick(&[0, 0, 0, 0, 1, 2]) };
        let mut actions = (0..others).map(|_| self.other_action(random)).collect();
        insert_anywhere(random, &mut actions, set(self.property, count));
        let mut owners = self.draft.ids_of_type(|node_type| node_type == CONTEXT);
        owners.retain(|&owner| !self.draft.is_in_switch(owner));
        let (owner, event) = (random.pick(&owners), [OF_ANCHOR, anchor, STARTS]);
        let link = ReportLink { owner, event, guard: NO_ID, actions };
        insert_anywhere(random, &mut self.links, link);
    }

    /// A link of any kind that does not set the property, at times on the start of an anchor of
    /// the media.
    fn add_other_link(&mut self, random: &mut Random) {
        let class = random.pick(&[OF_NODE, OF_ANCHOR, OF_PROPERTY, OF_KEY, OF_KEY]);
        let (subjects, transitions) = match class {
            OF_NODE => (self.draft.nodes.len(), 5),
            OF_ANCHOR => (self.anchors.len(), 5),
            OF_PROPERTY => (self.draft.properties, 2),
            _ => (3, 1),
        };
        let event = [class, random.below(subjects) as u8, random.between(1, transitions) as u8];
        let guard = self.draft.rule_or_none(random);
        let number = if random.one_in(20) { MOST_ACTIONS } else { random.below(3) };
        let actions = (0..number).map(|_| self.other_action(random)).collect();
        self.add_link(random, event, guard, actions);
    }

    /// A link that restarts the media on the start of an anchor of the other media, which begins
    /// with one of the media's.
    fn add_restart(&mut self, random: &mut Random) {
        let (anchor, _) = random.pick(&self.counts);
        let event = [OF_ANCHOR, self.add_anchor_like(anchor), STARTS];
        let actions = [STOP, START].map(|action| on_node(action, self.media));
        self.add_link(random, event, NO_ID, actions.to_vec());
    }

    /// An anchor of the other media with the begin and end of one of the media's.
    fn add_anchor_like(&mut self, anchor: u8) -> u8 {
        self.anchors.push(ReportAnchor { media: self.other_media, ..self.anchor(anchor) });
        self.anchors.len() as u8 - 1
    }

    fn add_link(
        &mut self,
        random: &mut Random,
        event: [u8; 3],
        guard: u8,
        actions: Vec<WrittenAction>,
    ) {
        let owner = random.pick(&self.draft.ids_of_type(|node_type| node_type == CONTEXT));
        let link = ReportLink { owner, event, guard, actions };
        insert_anywhere(random, &mut self.links, link);
    }

    /// A list of calls that begins with one or two starts: much ticking, pauses and resumes, stops
    /// and restarts, keys, commands that set the property, and calls of any kind, many of them
    /// refused.
    pub fn calls(&self, random: &mut Random, most: usize) -> Vec<Call> {
        let command = |action: u8, target: u8| Call::Command { action, target, value: 0 };
        let mut calls = vec![command(START, random.pick(&[0, self.media]))];
        if random.one_in(2) {
            calls.push(command(START, self.other_media));
        }
        let (nodes, properties) = (self.draft.nodes.len(), self.draft.properties);
        for _ in 0..random.below(most) {
            let target = self.target(random);
            match random.below(16) {
                0..=6 => calls.extend(vec![Call::Tick; random.pick(&[1, 1, 1, 2, 12])]),
                7 | 8 => {
                    calls.push(command(PAUSE, target));
                    calls.extend(vec![Call::Tick; random.below(3)]);
                    calls.push(command(RESUME, target));
                }
                9 => calls.push(command(random.between(2, 5) as u8, target)),
                10 | 11 => calls.push(command(START, self.media)),
                12 => calls.push(Call::Key { code: random.below(3) as u8 }),
                13 => {
                    let value = random.value();
                    calls.push(Call::Command { action: SET, target: self.property, value });
                }
                _ => calls.push(generate::call(random, nodes, properties)),
            }
        }
        calls
    }
}

fn on_node(action: u8, target: u8) -> WrittenAction {
    WrittenAction { action, target, value: 0 }
}

fn set(target: u8, value: i32) -> WrittenAction {
    WrittenAction { action: SET, target, value }
}

/// Begins and ends in order and without overlap, many of them touching.
fn intervals(random: &mut Random) -> Vec<(u16, u16)> {
    let number = match random.below(8) {
        0 => 1,
        1 => random.between(7, 50),
        _ => random.between(2, 6),
    };
    let mut begin = random.pick(&[0, 0, 0, 2]);
    let mut intervals = Vec::new();
    for _ in 0..number {
        let end = begin + random.pick(&[1, 1, 1, 2, 3]);
        intervals.push((begin, end));
        begin = end + random.pick(&[0, 0, 0, 1, 2]);
    }
    intervals
}

fn insert_anywhere<T>(random: &mut Random, list: &mut Vec<T>, entry: T) {
    list.insert(random.below(list.len() + 1), entry);
}

/// A change of a report, near one of the media's anchors.
pub struct Change {
    pub name: &'static str,
    /// The number of the first condition that fails by this change alone, 0 for none.
    pub condition: u8,
    change: fn(&mut CountReport, &mut Random, u8),
}

const fn change(
    condition: u8,
    name: &'static str,
    change: fn(&mut CountReport, &mut Random, u8),
) -> Change {
    Change { name, condition, change }
}

pub static CHANGES: [Change; 13] = [
    change(0, "an anchor ends at the next begin", CountReport::touch),
    change(0, "a link on a start sets another property", CountReport::set_other_property),
    change(0, "anchors of another media overlap", CountReport::overlap_in_other_media),
    change(0, "the owners of other links are in a switch", CountReport::move_other_owners),
    change(1, "the anchors are of another media", CountReport::move_anchors),
    change(2, "two anchors overlap", CountReport::overlap),
    change(3, "an anchor's start does not set the property", CountReport::remove_set),
    change(3, "a second link on a start sets the property", CountReport::add_second_link),
    change(3, "a link waits for another line", CountReport::move_link),
    change(4, "a link sets the property twice", CountReport::set_twice),
    change(5, "a link has a guard", CountReport::add_guard),
    change(6, "another action sets the property", CountReport::add_other_set),
    change(7, "the owner of a link is in a switch", CountReport::move_owner),
];

impl CountReport {
    pub fn change(&mut self, random: &mut Random, change: &Change) {
        let (anchor, _) = random.pick(&self.counts);
        (change.change)(self, random, anchor);
    }

    /// Makes some of the conditions fail and gives the number of the first of them, 0 for none. The
    /// changes by which none fails come first, then those from condition 7 down, so that each finds
    /// the links that it needs and none undoes another.
    pub fn change_some(&mut self, random: &mut Random) -> u8 {
        let mut first_failing = 0;
        for condition in [0, 7, 6, 5, 4, 3, 2, 1] {
            if random.one_in(3) {
                let of_condition = CHANGES.iter().filter(|change| change.condition == condition);
                let change = random.pick(&of_condition.collect::<Vec<_>>());
                self.change(random, change);
                first_failing = condition;
            }
        }
        first_failing
    }

    fn anchor(&self, anchor: u8) -> ReportAnchor {
        self.anchors[usize::from(anchor)]
    }

    fn sets_property(&self, action: &WrittenAction) -> bool {
        (action.action, action.target) == (SET, self.property)
    }

    /// The place of the link that sets the anchor's count.
    fn count_link_of(&self, anchor: u8) -> usize {
        let is_count_link = |link: &ReportLink| {
            link.event == [OF_ANCHOR, anchor, STARTS]
                && link.actions.iter().any(|action| self.sets_property(action))
        };
        self.links.iter().position(is_count_link).expect("each anchor has a link")
    }

    /// An action that sets the property to the anchor's count or to another value.
    fn set_near(&self, random: &mut Random, anchor: u8) -> WrittenAction {
        let count = self.counts.iter().find(|(counted, _)| *counted == anchor);
        let (_, count) = *count.expect("each anchor has a count");
        let value = random.value();
        set(self.property, random.pick(&[count, count.wrapping_add(1), value]))
    }

    /// Moves the end of one of the media's anchors to the begin of the next one or past it. Without
    /// a next one nothing happens.
    fn move_end(&mut self, random: &mut Random, past: u16) {
        let mut anchors: Vec<u8> = self.counts.iter().map(|&(anchor, _)| anchor).collect();
        anchors.sort_by_key(|&anchor| self.anchor(anchor).begin);
        let pairs: Vec<&[u8]> = anchors.windows(2).collect();
        if let Some(&[one, next]) = random.pick_any(&pairs) {
            self.anchors[usize::from(one)].end = self.anchor(next).begin + past;
        }
    }

    fn touch(&mut self, random: &mut Random, _: u8) {
        self.move_end(random, 0);
    }

    fn set_other_property(&mut self, random: &mut Random, anchor: u8) {
        let guard = self.draft.rule_or_none(random);
        let actions = vec![self.set_of_other_property(random); random.between(1, 2)];
        self.add_link(random, [OF_ANCHOR, anchor, STARTS], guard, actions);
    }

    fn overlap_in_other_media(&mut self, _: &mut Random, anchor: u8) {
        self.add_anchor_like(anchor);
        self.add_anchor_like(anchor);
    }

    fn move_other_owners(&mut self, random: &mut Random, _: u8) {
        let owners = self.draft.contexts_in_switches();
        for place in 0..self.links.len() {
            if !self.links[place].actions.iter().any(|action| self.sets_property(action)) {
                self.links[place].owner = random.pick(&owners);
            }
        }
    }

    /// With the actions left as they are, condition 6 fails too.
    fn move_anchors(&mut self, random: &mut Random, _: u8) {
        for anchor in &mut self.anchors {
            anchor.media = self.other_media;
        }
        if random.one_in(2) {
            (0..self.links.len()).for_each(|place| self.remove_sets_of(place));
        }
    }

    /// An anchor ends past the begin of the next one, or a further anchor overlaps it at its first
    /// tick, at its last or in all.
    fn overlap(&mut self, random: &mut Random, anchor: u8) {
        if self.counts.len() > 1 && random.one_in(4) {
            return self.move_end(random, 1);
        }
        let ReportAnchor { media, begin, end } = self.anchor(anchor);
        let (begin, end) = random.pick(&[(begin, begin + 1), (end - 1, end), (begin, end)]);
        self.anchors.push(ReportAnchor { media, begin, end });
        let count = random.value();
        self.add_count_link(random, self.anchors.len() as u8 - 1, count);
    }

    fn remove_sets_of(&mut self, place: usize) {
        let actions = std::mem::take(&mut self.links[place].actions);
        let others = actions.into_iter().filter(|action| !self.sets_property(action));
        self.links[place].actions = others.collect();
    }

    fn remove_set(&mut self, random: &mut Random, anchor: u8) {
        let place = self.count_link_of(anchor);
        match random.below(3) {
            0 => {
                self.links.remove(place);
            }
            1 => self.remove_sets_of(place),
            _ => {
                self.remove_sets_of(place);
                let other = self.set_of_other_property(random);
                insert_anywhere(random, &mut self.links[place].actions, other);
            }
        }
    }

    fn add_second_link(&mut self, random: &mut Random, anchor: u8) {
        let guard = self.draft.rule_or_none(random);
        let actions = match random.one_in(2) {
            true => self.links[self.count_link_of(anchor)].actions.clone(),
            false => vec![self.set_near(random, anchor)],
        };
        self.add_link(random, [OF_ANCHOR, anchor, STARTS], guard, actions);
    }

    /// A line that is no start of an anchor of the media, for a link to wait for.
    fn other_event(&mut self, random: &mut Random, anchor: u8) -> [u8; 3] {
        match random.below(5) {
            0 => [OF_KEY, random.below(3) as u8, STARTS],
            1 => [OF_ANCHOR, anchor, random.between(2, 5) as u8],
            2 => [OF_NODE, self.media, random.between(1, 5) as u8],
            3 => [OF_PROPERTY, self.property, random.between(1, 2) as u8],
            _ => [OF_ANCHOR, self.add_anchor_like(anchor), STARTS],
        }
    }

    /// Unless the link then waits for another anchor of the media, condition 6 fails too.
    fn move_link(&mut self, random: &mut Random, anchor: u8) {
        let place = self.count_link_of(anchor);
        let (other, _) = random.pick(&self.counts);
        self.links[place].event = match other != anchor {
            true => [OF_ANCHOR, other, STARTS],
            false => self.other_event(random, anchor),
        };
    }

    fn set_twice(&mut self, random: &mut Random, anchor: u8) {
        let set = self.set_near(random, anchor);
        let place = self.count_link_of(anchor);
        if self.links[place].actions.len() == MOST_ACTIONS {
            let is_other = |action: &WrittenAction| !self.sets_property(action);
            let other = self.links[place].actions.iter().position(is_other);
            self.links[place].actions.remove(other.expect("not all actions set the property"));
        }
        insert_anywhere(random, &mut self.links[place].actions, set);
    }

    fn add_guard(&mut self, random: &mut Random, anchor: u8) {
        let place = self.count_link_of(anchor);
        let on_all = random.one_in(2);
        for (other, link) in self.links.iter_mut().enumerate() {
            if on_all || other == place {
                link.guard = random.below(self.draft.rules) as u8;
            }
        }
    }

    fn move_owner(&mut self, random: &mut Random, anchor: u8) {
        let owners = self.draft.contexts_in_switches();
        let place = self.count_link_of(anchor);
        let on_all = random.one_in(2);
        for (other, link) in self.links.iter_mut().enumerate() {
            if on_all || other == place {
                link.owner = random.pick(&owners);
            }
        }
    }

    fn add_other_set(&mut self, random: &mut Random, anchor: u8) {
        let event = self.other_event(random, anchor);
        let guard = self.draft.rule_or_none(random);
        let actions = vec![self.set_near(random, anchor)];
        self.add_link(random, event, guard, actions);
    }
}
