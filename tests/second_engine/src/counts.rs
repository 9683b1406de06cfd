//! Whether a document shows the counts of a media in a property, and the count of an anchor.
//!
//! "A document shows the counts of media m in property p if m has at least one anchor, and the
//! anchors of m do not overlap (of any two, one ends at or before the begin of the other), for each
//! anchor a of m exactly one link on its start (class 2, a, transition 1) sets p, in exactly one of
//! its actions; it has no guard, no other action of the document sets p." With Req 01, last: "no
//! switch lies above the owner of a count's link", the link on the start of an anchor of m that sets
//! p.
//!
//! Readings of that definition:
//! - Its conditions are numbered in its order. Each is asked of the whole document, all anchors
//!   and all links, before the next one is asked.
//! - A link sets the property if at least one of its actions does, whatever the value.
//! - Links on an anchor's start that do not set the property may be there in any number, with
//!   guards too.
//! - A guard that always holds is a guard all the same.
//! - A switch above the owner counts whatever it has chosen, also if it can choose nothing else.
//! - Only the tables of the document decide. States, clocks, values and choices do not.

use crate::document::{Anchor, Document, Link};
use crate::event::{Action, Subject, Transition};
use crate::refusal::{ensure, Refusal};
use crate::session::Session;

/// What a document that shows counts must keep, in the order in which it is asked.
#[derive(Debug, Clone, Copy, PartialEq, Eq, PartialOrd, Ord)]
pub enum Condition {
    /// The media has at least one anchor.
    HasAnchor = 1,
    /// Of any two anchors of the media one ends at or before the begin of the other.
    NoOverlap = 2,
    /// For each anchor of the media exactly one link on its start sets the property.
    OneLink = 3,
    /// Each of these links does so in exactly one of its actions.
    OneAction = 4,
    /// Each of these links has no guard.
    NoGuard = 5,
    /// No other action of the document sets the property.
    NoOtherAction = 6,
    /// No switch lies above the owner of one of these links.
    OutsideSwitches = 7,
}

impl Condition {
    pub const ALL: [Condition; 7] = [
        Condition::HasAnchor,
        Condition::NoOverlap,
        Condition::OneLink,
        Condition::OneAction,
        Condition::NoGuard,
        Condition::NoOtherAction,
        Condition::OutsideSwitches,
    ];

    pub fn number(self) -> u8 {
        self as u8
    }
}

/// The number of the condition that fails, or 0.
pub fn number_or_0<T>(answer: Result<T, Condition>) -> u8 {
    answer.err().map_or(0, Condition::number)
}

/// Whether a document shows counts, or else the first condition that fails.
pub type CheckAnswer = Result<Result<(), Condition>, Refusal>;

/// An anchor's count, or else the first condition that fails for its media.
pub type CountAnswer = Result<Result<i32, Condition>, Refusal>;

impl Document {
    /// Gives the first condition that fails unless the document shows the counts of the media in
    /// the property.
    fn shows_counts(&self, media: usize, property: usize) -> Result<(), Condition> {
        let fails = |condition: &Condition| !self.keeps(*condition, media, property);
        Condition::ALL.into_iter().find(fails).map_or(Ok(()), Err)
    }

    fn keeps(&self, condition: Condition, media: usize, property: usize) -> bool {
        let anchors = &self.nodes[media].anchors;
        let mut links = anchors.iter().flat_map(|&anchor| self.count_links(anchor, property));
        match condition {
            Condition::HasAnchor => !anchors.is_empty(),
            Condition::NoOverlap => self.have_no_overlap(anchors),
            Condition::OneLink => {
                anchors.iter().all(|&anchor| self.count_links(anchor, property).len() == 1)
            }
            Condition::OneAction => links.all(|link| values_set(link, property).len() == 1),
            Condition::NoGuard => links.all(|link| link.guard.is_none()),
            Condition::NoOtherAction => self.links.iter().all(|link| {
                values_set(link, property).is_empty()
                    || anchors.iter().any(|&anchor| is_on_start(link, anchor))
            }),
            Condition::OutsideSwitches => {
                links.all(|link| self.switches_above(link.owner).is_empty())
            }
        }
    }

    fn have_no_overlap(&self, anchors: &[usize]) -> bool {
        anchors.iter().enumerate().all(|(place, &one)| {
            anchors[place + 1..]
                .iter()
                .all(|&other| follow_each_other(self.anchors[one], self.anchors[other]))
        })
    }

    /// The links on the anchor's start that set the property.
    fn count_links(&self, anchor: usize, property: usize) -> Vec<&Link> {
        self.links
            .iter()
            .filter(|link| is_on_start(link, anchor) && !values_set(link, property).is_empty())
            .collect()
    }

    /// The value to which the anchor's start sets the property, if the document shows counts.
    fn count_of(&self, anchor: usize, property: usize) -> Result<i32, Condition> {
        self.shows_counts(self.anchors[anchor].media, property)?;
        let link = self.count_links(anchor, property)[0];
        Ok(values_set(link, property)[0])
    }
}

/// Whether one of the two anchors ends at or before the begin of the other.
fn follow_each_other(one: Anchor, other: Anchor) -> bool {
    one.end <= other.begin || other.end <= one.begin
}

fn is_on_start(link: &Link, anchor: usize) -> bool {
    (link.subject, link.transition) == (Subject::Anchor(anchor), Transition::Starts)
}

/// The values to which the link's actions set the property, one for each action that does.
fn values_set(link: &Link, property: usize) -> Vec<i32> {
    let value_set = |action: &Action| match *action {
        Action::Set { property: target, value } if target == property => Some(value),
        _ => None,
    };
    link.actions.iter().filter_map(value_set).collect()
}

impl Session {
    /// Whether the document shows the counts of the media in the property.
    pub fn check_counts(&self, media: u8, property: u8) -> CheckAnswer {
        let (media, property) = (usize::from(media), usize::from(property));
        let node = self.document.nodes.get(media).ok_or(Refusal::NoSuchTarget)?;
        ensure(!node.is_composite(), Refusal::NoSuchTarget)?;
        ensure(property < self.properties.len(), Refusal::NoSuchTarget)?;
        Ok(self.document.shows_counts(media, property))
    }

    /// The value to which the anchor's start sets the property.
    pub fn count_of(&self, anchor: u8, property: u8) -> CountAnswer {
        let (anchor, property) = (usize::from(anchor), usize::from(property));
        ensure(anchor < self.anchors.len(), Refusal::NoSuchTarget)?;
        ensure(property < self.properties.len(), Refusal::NoSuchTarget)?;
        Ok(self.document.count_of(anchor, property))
    }
}
