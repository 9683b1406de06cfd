//! Events: states, transitions, actions and log lines.
//!
//! Reading of 01: it gives the states no numbers. Sleeping is 0, since the empty session is all
//! zero; occurring is 1 and paused 2, in the order in which 01 names them.

/// The state of a node or an anchor.
#[derive(Debug, Clone, Copy, PartialEq, Eq, PartialOrd, Ord)]
pub enum State {
    Sleeping = 0,
    Occurring = 1,
    Paused = 2,
}

impl State {
    pub fn read(number: u8) -> Option<State> {
        match number {
            0 => Some(State::Sleeping),
            1 => Some(State::Occurring),
            2 => Some(State::Paused),
            _ => None,
        }
    }

    pub fn is_awake(self) -> bool {
        self != State::Sleeping
    }

    /// What the action makes of a media in this state, if it changes it.
    pub fn after(self, action: NodeAction) -> Option<(State, Transition)> {
        match (self, action) {
            (State::Sleeping, NodeAction::Start) => Some((State::Occurring, Transition::Starts)),
            (State::Occurring, NodeAction::Pause) => Some((State::Paused, Transition::Pauses)),
            (State::Paused, NodeAction::Resume) => Some((State::Occurring, Transition::Resumes)),
            (State::Occurring | State::Paused, NodeAction::Stop) => {
                Some((State::Sleeping, Transition::Stops))
            }
            (State::Occurring | State::Paused, NodeAction::Abort) => {
                Some((State::Sleeping, Transition::Aborts))
            }
            _ => None,
        }
    }
}

#[derive(Debug, Clone, Copy, PartialEq, Eq, PartialOrd, Ord)]
pub enum Transition {
    Starts = 1,
    Stops = 2,
    Aborts = 3,
    Pauses = 4,
    Resumes = 5,
}

impl Transition {
    pub fn read(number: u8) -> Option<Transition> {
        match number {
            1 => Some(Transition::Starts),
            2 => Some(Transition::Stops),
            3 => Some(Transition::Aborts),
            4 => Some(Transition::Pauses),
            5 => Some(Transition::Resumes),
            _ => None,
        }
    }
}

/// An action on a node.
#[derive(Debug, Clone, Copy, PartialEq, Eq)]
pub enum NodeAction {
    Start = 1,
    Stop = 2,
    Abort = 3,
    Pause = 4,
    Resume = 5,
}

/// An action with its target, of a command or of a link.
#[derive(Debug, Clone, Copy, PartialEq, Eq)]
pub enum Action {
    OnNode { action: NodeAction, node: usize },
    Set { property: usize, value: i32 },
}

impl Action {
    /// The action that the three fields name, or nothing if a field is outside its values.
    /// Whether the target is there is not looked at.
    pub fn read(action: u8, target: u8, value: i32) -> Option<Action> {
        let target = usize::from(target);
        let action = match action {
            1 => NodeAction::Start,
            2 => NodeAction::Stop,
            3 => NodeAction::Abort,
            4 => NodeAction::Pause,
            5 => NodeAction::Resume,
            6 => return Some(Action::Set { property: target, value }),
            _ => return None,
        };
        (value == 0).then_some(Action::OnNode { action, node: target })
    }

    /// The three fields that name the action.
    pub fn fields(self) -> (u8, u8, i32) {
        match self {
            Action::OnNode { action, node } => (action as u8, node as u8, 0),
            Action::Set { property, value } => (6, property as u8, value),
        }
    }
}

/// What an event belongs to.
#[derive(Debug, Clone, Copy, PartialEq, Eq)]
pub enum Subject {
    Node(usize),
    Anchor(usize),
    Property(usize),
    Key(u8),
}

impl Subject {
    /// The class and the id.
    pub fn fields(self) -> (u8, u8) {
        match self {
            Subject::Node(id) => (1, id as u8),
            Subject::Anchor(id) => (2, id as u8),
            Subject::Property(id) => (3, id as u8),
            Subject::Key(code) => (4, code),
        }
    }
}

/// A line of the log.
#[derive(Debug, Clone, Copy, PartialEq, Eq)]
pub enum Line {
    Event { subject: Subject, transition: Transition },
    Fired { link: usize },
}

impl Line {
    pub fn bytes(self) -> [u8; 4] {
        match self {
            Line::Event { subject, transition } => {
                let (class, id) = subject.fields();
                [class, id, transition as u8, 0]
            }
            Line::Fired { link } => [5, link as u8, 0, 0],
        }
    }
}
