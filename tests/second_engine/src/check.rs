//! The statements that hold after every list of calls from a new session (demand 3, those on shown
//! counts, and that of choices), decided from the bytes of the log slices and the session as written
//! down, and from nothing else.

use std::collections::{BTreeMap, HashMap};

use crate::printed::lines_of;
use crate::written::WrittenSession;

const SLEEPING: u8 = 0;
const OCCURRING: u8 = 1;
const PAUSED: u8 = 2;
const MEDIA: u8 = 1;
const SWITCH: u8 = 2;
const NONE: u8 = 0;

/// The joined logs of the accepted calls, as a number of lines for each class, id and transition.
#[derive(Default)]
pub struct History {
    numbers: HashMap<(u8, u8, u8), u64>,
}

impl History {
    pub fn new() -> Self {
        Self::default()
    }

    /// Joins the log of an accepted call and looks at its reported firings.
    pub fn join(&mut self, slice: &[u8], firings: usize, limit: u8) -> Result<(), String> {
        let mut fired_lines = 0;
        for group in slice.chunks(4) {
            let &[class, id, transition, _] = group else { break };
            if class == 0 {
                break;
            }
            if class == 5 {
                fired_lines += 1;
            }
            *self.numbers.entry((class, id, transition)).or_default() += 1;
        }
        if firings != fired_lines || firings > usize::from(limit) {
            return Err(format!("{firings} firings, {fired_lines} fired lines, limit {limit}"));
        }
        Ok(())
    }

    /// Looks at all statements about the session after the calls joined so far.
    pub fn check(&self, session: &WrittenSession) -> Result<(), String> {
        check_composites(session)?;
        check_anchors(session)?;
        for (id, node) in session.nodes[..session.node_count].iter().enumerate() {
            self.check_starts(1, id, node.state)?;
            self.check_count(1, id, node.count)?;
        }
        for (id, anchor) in session.anchors[..session.anchor_count].iter().enumerate() {
            self.check_starts(2, id, anchor.state)?;
            self.check_count(2, id, anchor.count)?;
        }
        for (id, property) in session.properties[..session.property_count].iter().enumerate() {
            self.check_count(3, id, property.count)?;
        }
        Ok(())
    }

    fn number(&self, class: u8, id: usize, transition: u8) -> u64 {
        self.numbers.get(&(class, id as u8, transition)).copied().unwrap_or(0)
    }

    fn check_starts(&self, class: u8, id: usize, state: u8) -> Result<(), String> {
        let starts = self.number(class, id, 1);
        let stops = self.number(class, id, 2);
        let aborts = self.number(class, id, 3);
        let awake = u64::from(state != SLEEPING);
        if starts != stops + aborts + awake {
            return Err(format!(
                "{class}.{id}: {starts} starts, {stops} stops, {aborts} aborts, state {state}"
            ));
        }
        Ok(())
    }

    fn check_count(&self, class: u8, id: usize, count: u32) -> Result<(), String> {
        let stops = self.number(class, id, 2);
        if u64::from(count) != stops % 4_294_967_296 {
            return Err(format!("{class}.{id}: count {count}, {stops} stops"));
        }
        Ok(())
    }
}

/// A composite is occurring exactly when a child is, and paused exactly when no child is
/// occurring and one is paused.
pub fn check_composites(session: &WrittenSession) -> Result<(), String> {
    let nodes = &session.nodes[..session.node_count];
    let mut has_occurring = vec![false; nodes.len()];
    let mut has_paused = vec![false; nodes.len()];
    for node in &nodes[1..] {
        let parent = usize::from(node.parent);
        has_occurring[parent] |= node.state == OCCURRING;
        has_paused[parent] |= node.state == PAUSED;
    }
    for (id, node) in nodes.iter().enumerate().filter(|(_, node)| node.node_type != MEDIA) {
        let occurring_rule = (node.state == OCCURRING) == has_occurring[id];
        let paused_rule = (node.state == PAUSED) == (!has_occurring[id] && has_paused[id]);
        if !occurring_rule || !paused_rule {
            return Err(format!("composite {id} in state {} against its children", node.state));
        }
    }
    Ok(())
}

/// An anchor is awake exactly when its media is awake and begin ≤ clock < end, and then it is in
/// its media's state.
pub fn check_anchors(session: &WrittenSession) -> Result<(), String> {
    for (id, anchor) in session.anchors[..session.anchor_count].iter().enumerate() {
        let media = &session.nodes[usize::from(anchor.media)];
        let inside = (anchor.begin..anchor.end).contains(&media.clock);
        let should_be_awake = media.state != SLEEPING && inside;
        let is_awake = anchor.state != SLEEPING;
        if is_awake != should_be_awake || is_awake && anchor.state != media.state {
            return Err(format!(
                "anchor {id} in state {} with media in state {} at clock {}",
                anchor.state, media.state, media.clock
            ));
        }
    }
    Ok(())
}

/// A choice is a child of the switch that holds it, and nothing but a switch holds one.
pub fn check_choices(session: &WrittenSession) -> Result<(), String> {
    for (id, node) in session.nodes.iter().enumerate().filter(|(_, node)| node.choice != NONE) {
        let is_switch = id < session.node_count && node.node_type == SWITCH;
        let child = session.nodes[..session.node_count].get(usize::from(node.choice));
        if !is_switch || child.is_none_or(|child| usize::from(child.parent) != id) {
            return Err(format!("node {id} holds the choice {}", node.choice));
        }
    }
    Ok(())
}

/// The statements about a document that shows the counts of a media in a property, with what they
/// need of the joined logs. Whether the document shows them is not looked at.
#[derive(Clone)]
pub struct ShownCounts {
    media: u8,
    property: u8,
    /// The media's anchors, each with the value to which the links on its start set the property
    /// first, if they do.
    counts: BTreeMap<u8, Option<i32>>,
    first_value: i32,
    /// The last anchor of the media whose start is in the joined logs.
    pub last_start: Option<u8>,
}

impl ShownCounts {
    /// Begins with the new session and reads the counts from its links.
    pub fn new(session: &WrittenSession, media: u8, property: u8) -> Self {
        let anchors = (0..).zip(&session.anchors[..session.anchor_count]);
        let of_media = anchors.filter(|(_, anchor)| anchor.media == media);
        ShownCounts {
            media,
            property,
            counts: of_media.map(|(id, _)| (id, first_value_set(session, id, property))).collect(),
            first_value: session.properties[usize::from(property)].value,
            last_start: None,
        }
    }

    /// Joins the log of an accepted call.
    pub fn join(&mut self, slice: &[u8]) {
        for [class, id, transition, _] in lines_of(slice) {
            if (class, transition) == (2, 1) && self.counts.contains_key(&id) {
                self.last_start = Some(id);
            }
        }
    }

    /// The anchors of the media with begin ≤ clock < end, if it is awake.
    pub fn anchors_at_clock(&self, session: &WrittenSession) -> Vec<u8> {
        let media = &session.nodes[usize::from(self.media)];
        let is_at_clock = |id: &u8| {
            let anchor = &session.anchors[usize::from(*id)];
            media.state != SLEEPING && (anchor.begin..anchor.end).contains(&media.clock)
        };
        self.counts.keys().copied().filter(is_at_clock).collect()
    }

    /// Looks at both statements about the session after the calls joined so far.
    pub fn check(&self, session: &WrittenSession) -> Result<(), String> {
        self.check_last_start(session)?;
        self.check_clock(session)
    }

    /// The property has the count of the last anchor of the media whose start is in the joined logs,
    /// and without such a line its first value.
    pub fn check_last_start(&self, session: &WrittenSession) -> Result<(), String> {
        let expected =
            self.last_start.map_or(Some(self.first_value), |anchor| self.counts[&anchor]);
        let value = self.value(session);
        if Some(value) != expected {
            return Err(format!("value {value} after the start of {:?}", self.last_start));
        }
        Ok(())
    }

    /// If the media is awake and begin ≤ clock < end for an anchor of it, the property has that
    /// anchor's count.
    pub fn check_clock(&self, session: &WrittenSession) -> Result<(), String> {
        let value = self.value(session);
        for anchor in self.anchors_at_clock(session) {
            if Some(value) != self.counts[&anchor] {
                return Err(format!("value {value} at a clock of anchor {anchor}"));
            }
        }
        Ok(())
    }

    fn value(&self, session: &WrittenSession) -> i32 {
        session.properties[usize::from(self.property)].value
    }
}

/// The first value to which the links on the anchor's start set the property, in the order of the
/// links and their actions.
fn first_value_set(session: &WrittenSession, anchor: u8, property: u8) -> Option<i32> {
    let links = session.links[..session.link_count].iter();
    let on_start =
        links.filter(|link| (link.class, link.subject, link.transition) == (2, anchor, 1));
    let mut actions = on_start.flat_map(|link| &link.actions[..link.action_count]);
    let sets = actions.find(|action| (action.action, action.target) == (6, property));
    sets.map(|action| action.value)
}
