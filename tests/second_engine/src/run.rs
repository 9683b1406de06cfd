//! One call on a copy of the session: actions, settling, the tick and the chain of links.
//!
//! Readings of 01:
//! - Within an action a composite keeps the state it had before, until the settling.
//! - The tick's settling is no settling of an abort: composites that go to sleep log stops.
//! - A sleeping composite cannot become paused, for no action takes a media from sleeping to
//!   paused; 01 names no line for it.
//! - A firing is counted when its line has been logged.
//!
//! Readings of Req 01:
//! - The switches above an owner are those among its parent, that one's parent and so on. A link
//!   whose owner has none above it fires as before.
//! - The condition is asked where the guard is, on the choices of that moment: what an earlier
//!   link of the same line has chosen counts, and not the choice of when the line was logged.
//! - Every start of a sleeping switch is a start of that switch: by a command, by a link, by a port
//!   of the context above it and by a bind of the switch above it.
//! - A default is chosen by a start alone, as the other children are.
//! - A child is chosen when the start finds it, also if its own start then wakes nothing.
//! - Nothing but a start changes a choice, so that it outlives stop, abort and natural end: the
//!   links below a sleeping switch fire by the choice that it had.
//! - A link that is held back does not fire. It logs nothing and does not meet refusal 11.

use std::collections::VecDeque;
use std::rc::Rc;

use crate::call::Call;
use crate::document::{Document, NodeKind};
use crate::event::{Action, Line, NodeAction, State, Subject, Transition};
use crate::probe::{Fault, Heard, Probe, StartSeen, SwitchAbove};
use crate::refusal::{ensure, Refusal};
use crate::session::Session;

pub struct Run<'a> {
    document: Rc<Document>,
    session: Session,
    /// The number of lines that fit in the log slice.
    room: usize,
    lines: Vec<Line>,
    /// The places of the lines not yet taken.
    waiting: VecDeque<usize>,
    /// The place of the line taken last.
    taken: usize,
    firings: usize,
    probe: &'a mut Probe,
    /// The properties' values at each line, kept for `Fault::GuardReadWhenLogged` alone.
    values_when_logged: Vec<Vec<i32>>,
    /// The nodes' choices at each line, kept for `Fault::ChoiceReadWhenLogged` alone.
    choices_when_logged: Vec<Vec<Option<usize>>>,
}

/// What an accepted call leaves.
pub struct Accepted {
    pub session: Session,
    pub lines: Vec<Line>,
    pub firings: usize,
}

impl<'a> Run<'a> {
    pub fn of(session: &Session, room: usize, probe: &'a mut Probe) -> Self {
        Run {
            document: Rc::clone(&session.document),
            session: session.clone(),
            room,
            lines: Vec::new(),
            waiting: VecDeque::new(),
            taken: 0,
            firings: 0,
            probe,
            values_when_logged: Vec::new(),
            choices_when_logged: Vec::new(),
        }
    }

    pub fn perform(mut self, call: Call) -> Result<Accepted, Refusal> {
        match call {
            Call::Command { action, target, value } => {
                let action = Action::read(action, target, value).ok_or(Refusal::WrongArgument)?;
                ensure(self.document.has_target(action), Refusal::NoSuchTarget)?;
                self.act(action)?;
            }
            Call::Key { code } => self.log(Subject::Key(code), Transition::Starts)?,
            Call::Tick => self.tick()?,
        }
        self.fire_links()?;
        Ok(Accepted { session: self.session, lines: self.lines, firings: self.firings })
    }

    /// Runs one action and settles.
    fn act(&mut self, action: Action) -> Result<(), Refusal> {
        let mut aborted = None;
        match action {
            Action::Set { property, value } => self.set(property, value)?,
            Action::OnNode { action: NodeAction::Start, node } => {
                self.leave_choice_above(node);
                self.start(node)?;
            }
            Action::OnNode { action, node } => {
                aborted = (action == NodeAction::Abort).then_some(node);
                for media in self.document.media_of(node) {
                    self.change_media(media, action)?;
                    if self.has(Fault::SettleAfterEachMedia) {
                        self.settle(aborted)?;
                    }
                }
            }
        }
        self.settle(aborted)
    }

    fn set(&mut self, property: usize, value: i32) -> Result<(), Refusal> {
        self.log(Subject::Property(property), Transition::Starts)?;
        let event = &mut self.session.properties[property];
        event.value = value;
        event.count = event.count.wrapping_add(1);
        self.log(Subject::Property(property), Transition::Stops)
    }

    fn start(&mut self, node: usize) -> Result<(), Refusal> {
        if self.session.nodes[node].state.is_awake() {
            self.leave_choice_of(node);
            return Ok(());
        }
        let document = Rc::clone(&self.document);
        match document.nodes[node].kind {
            NodeKind::Media { .. } => self.change_media(node, NodeAction::Start),
            NodeKind::Context => document
                .ports
                .iter()
                .filter(|port| port.context == node)
                .try_for_each(|port| self.start(port.child)),
            NodeKind::Switch => match self.choose(node) {
                Some(child) => self.start(child),
                None => Ok(()),
            },
        }
    }

    /// The child that a start of the switch finds, which the session remembers.
    fn choose(&mut self, switch: usize) -> Option<usize> {
        let (old, new) = (self.session.nodes[switch].choice, self.child_found(switch));
        self.see_start(StartSeen::OfSleepingSwitch { old, new });
        if new.is_some() || !self.has(Fault::EmptyStartKeepsChoice) {
            self.session.nodes[switch].choice = new;
        }
        new
    }

    /// A start of an awake switch changes nothing, save with a fault.
    fn leave_choice_of(&mut self, node: usize) {
        if self.document.nodes[node].kind == NodeKind::Switch {
            self.see_start(StartSeen::OfAwakeSwitch { choice: self.session.nodes[node].choice });
            if self.has(Fault::AwakeSwitchChooses) {
                self.choose(node);
            }
        }
    }

    /// A direct start of a switch's child leaves the switch's choice, save with a fault.
    fn leave_choice_above(&mut self, child: usize) {
        let Some(parent) = self.document.nodes[child].parent else {
            return;
        };
        if self.document.nodes[parent].kind == NodeKind::Switch {
            let choice = self.session.nodes[parent].choice;
            self.see_start(StartSeen::OfChild { child, choice });
            if self.has(Fault::ChildStartChooses) {
                self.session.nodes[parent].choice = Some(child);
            }
        }
    }

    fn see_start(&mut self, start: StartSeen) {
        self.probe.starts.push((start, self.firings > 0));
    }

    /// The child of the switch's first bind whose rule holds, else of its default.
    fn child_found(&mut self, switch: usize) -> Option<usize> {
        let document = Rc::clone(&self.document);
        let mut default = None;
        for bind in document.binds.iter().filter(|bind| bind.switch == switch) {
            match bind.rule {
                None => default = Some(bind.child),
                Some(rule) if self.decide(rule, &self.session.values()) => return Some(bind.child),
                Some(_) => {}
            }
        }
        default
    }

    /// Takes a media and its anchors through an action, as far as it changes the media's state.
    fn change_media(&mut self, media: usize, action: NodeAction) -> Result<(), Refusal> {
        let Some((state, transition)) = self.session.nodes[media].state.after(action) else {
            return Ok(());
        };
        let document = Rc::clone(&self.document);
        let mut followers = document.nodes[media].anchors.clone();
        followers.retain(|&anchor| match action {
            NodeAction::Start => document.anchors[anchor].begin == 0,
            _ => self.session.anchors[anchor].state.is_awake(),
        });
        if matches!(action, NodeAction::Start | NodeAction::Stop | NodeAction::Abort) {
            self.session.nodes[media].clock = 0;
        }
        if action == NodeAction::Pause && self.has(Fault::PauseMovesClock) {
            self.session.nodes[media].clock += 1;
        }
        let media_first = matches!(action, NodeAction::Start | NodeAction::Resume);
        if media_first {
            self.enter_node(media, state, transition)?;
        }
        for anchor in followers {
            self.enter_anchor(anchor, state, transition)?;
        }
        if !media_first {
            self.enter_node(media, state, transition)?;
        }
        Ok(())
    }

    fn enter_node(
        &mut self,
        node: usize,
        state: State,
        transition: Transition,
    ) -> Result<(), Refusal> {
        let adds = self.adds_to_count(transition);
        let event = &mut self.session.nodes[node];
        event.state = state;
        event.count = event.count.wrapping_add(adds);
        self.log(Subject::Node(node), transition)
    }

    fn enter_anchor(
        &mut self,
        anchor: usize,
        state: State,
        transition: Transition,
    ) -> Result<(), Refusal> {
        let adds = self.adds_to_count(transition);
        let event = &mut self.session.anchors[anchor];
        event.state = state;
        event.count = event.count.wrapping_add(adds);
        self.log(Subject::Anchor(anchor), transition)
    }

    fn adds_to_count(&self, transition: Transition) -> u32 {
        let counted = transition == Transition::Stops
            || transition == Transition::Aborts && self.has(Fault::CountAborts);
        u32::from(counted)
    }

    /// Gives each composite, by descending id, the state that its children give it. With an
    /// aborted target, that target and the composites below it log aborts.
    fn settle(&mut self, aborted: Option<usize>) -> Result<(), Refusal> {
        for node in (0..self.document.nodes.len()).rev() {
            if !self.document.nodes[node].is_composite() {
                continue;
            }
            let old = self.session.nodes[node].state;
            let new = self.session.state_from_children(node);
            let transition = match (old, new) {
                _ if old == new => continue,
                (State::Sleeping, State::Occurring) => Transition::Starts,
                (_, State::Occurring) => Transition::Resumes,
                (_, State::Paused) => Transition::Pauses,
                (_, State::Sleeping) => {
                    match aborted.is_some_and(|target| self.document.is_within(node, target)) {
                        true => Transition::Aborts,
                        false => Transition::Stops,
                    }
                }
            };
            if new == State::Sleeping && self.has(Fault::SleepClearsChoice) {
                self.session.nodes[node].choice = None;
            }
            self.enter_node(node, new, transition)?;
        }
        Ok(())
    }

    fn tick(&mut self) -> Result<(), Refusal> {
        for media in self.document.media_of(0) {
            self.tick_media(media)?;
            if self.has(Fault::LinksBeforeAllMediaTicked) {
                self.settle(None)?;
                self.fire_links()?;
            }
        }
        self.settle(None)
    }

    fn tick_media(&mut self, media: usize) -> Result<(), Refusal> {
        let event = &mut self.session.nodes[media];
        if event.state != State::Occurring || event.clock == u16::MAX {
            return Ok(());
        }
        event.clock += 1;
        let clock = event.clock;
        let document = Rc::clone(&self.document);
        let node = &document.nodes[media];
        let end_reached = if self.has(Fault::AnchorAwakeAtEnd) { clock - 1 } else { clock };
        for &anchor in &node.anchors {
            let is_awake = self.session.anchors[anchor].state.is_awake();
            if is_awake && document.anchors[anchor].end == end_reached {
                self.enter_anchor(anchor, State::Sleeping, Transition::Stops)?;
            }
        }
        let late = u16::from(self.has(Fault::AnchorStartsLate));
        for &anchor in &node.anchors {
            let begin = document.anchors[anchor].begin;
            if begin > 0 && begin + late == clock {
                self.enter_anchor(anchor, State::Occurring, Transition::Starts)?;
            }
        }
        if node.kind == (NodeKind::Media { duration: clock }) {
            self.change_media(media, NodeAction::Stop)?;
        }
        Ok(())
    }

    /// Takes the lines not yet taken in order and fires the links that wait for them.
    fn fire_links(&mut self) -> Result<(), Refusal> {
        let document = Rc::clone(&self.document);
        while let Some(place) = self.next_line() {
            self.taken = place;
            let line = self.lines[place];
            for (id, link) in document.links.iter().enumerate() {
                if link.matches(line) && self.guard_holds(link.guard) && self.is_chosen(link.owner)
                {
                    ensure(self.firings < usize::from(document.limit), Refusal::FiringLimit)?;
                    self.push_line(Line::Fired { link: id })?;
                    self.firings += 1;
                    link.actions.iter().try_for_each(|&action| self.act(action))?;
                }
            }
        }
        Ok(())
    }

    /// The place of the line to take next: the first that was not taken.
    fn next_line(&mut self) -> Option<usize> {
        if self.has(Fault::NewestLineFirst) {
            return self.waiting.pop_back();
        }
        if self.has(Fault::LastLineNotTaken) && self.waiting.len() == 1 {
            return None;
        }
        self.waiting.pop_front()
    }

    fn guard_holds(&mut self, guard: Option<usize>) -> bool {
        let Some(rule) = guard else {
            return true;
        };
        let values = if self.has(Fault::GuardReadWhenLogged) {
            self.values_when_logged[self.taken].clone()
        } else {
            self.session.values()
        };
        self.decide(rule, &values)
    }

    /// Whether every switch above the owner has chosen last its child on the path to the owner.
    fn is_chosen(&mut self, owner: usize) -> bool {
        let mut switches = self.document.switches_above(owner);
        let above = |&(switch, child): &(usize, usize)| {
            let event = self.session.nodes[switch];
            SwitchAbove { child, choice: event.choice, is_awake: event.state.is_awake() }
        };
        let seen = switches.iter().map(above).collect();
        self.probe.heard.push(Heard { owner, switches: seen, firings: self.firings });
        match self.probe.fault {
            Some(Fault::OwnerWithoutEffect) => switches.clear(),
            Some(Fault::NearestSwitchOnly) => switches.truncate(1),
            _ => {}
        }
        switches.into_iter().all(|(switch, child)| self.choice_of(switch) == Some(child))
    }

    /// The child that a start of the switch chose last.
    fn choice_of(&self, switch: usize) -> Option<usize> {
        let choice = self.session.nodes[switch].choice;
        match self.probe.fault {
            Some(Fault::ChoiceReadWhenLogged) => self.choices_when_logged[self.taken][switch],
            Some(Fault::DefaultChosenWithoutStart) => choice.or(self.default_of(switch)),
            _ => choice,
        }
    }

    fn default_of(&self, switch: usize) -> Option<usize> {
        let mut binds = self.document.binds.iter();
        let default = binds.find(|bind| bind.switch == switch && bind.rule.is_none());
        default.map(|bind| bind.child)
    }

    fn decide(&mut self, rule: usize, values: &[i32]) -> bool {
        let holds = self.document.holds(rule, values);
        self.probe.decided.push((rule, holds));
        holds
    }

    fn log(&mut self, subject: Subject, transition: Transition) -> Result<(), Refusal> {
        self.push_line(Line::Event { subject, transition })
    }

    fn push_line(&mut self, line: Line) -> Result<(), Refusal> {
        ensure(self.lines.len() < self.room, Refusal::LogFull)?;
        self.waiting.push_back(self.lines.len());
        self.lines.push(line);
        if self.has(Fault::GuardReadWhenLogged) {
            self.values_when_logged.push(self.session.values());
        }
        if self.has(Fault::ChoiceReadWhenLogged) {
            let choices = self.session.nodes.iter().map(|node| node.choice).collect();
            self.choices_when_logged.push(choices);
        }
        Ok(())
    }

    fn has(&self, fault: Fault) -> bool {
        self.probe.fault == Some(fault)
    }
}
