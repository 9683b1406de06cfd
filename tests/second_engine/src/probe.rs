//! What tests plant in a call and see of it; an ordinary call uses the default.

/// A known wrong way to run the machine.
#[derive(Debug, Clone, Copy, PartialEq, Eq)]
pub enum Fault {
    SettleAfterEachMedia,
    CountAborts,
    GuardReadWhenLogged,
    AnchorAwakeAtEnd,
    LinksBeforeAllMediaTicked,
    PauseMovesClock,
    NewestLineFirst,
    LastLineNotTaken,
    AnchorStartsLate,
    OwnerWithoutEffect,
    DefaultChosenWithoutStart,
    SleepClearsChoice,
    NearestSwitchOnly,
    ChoiceReadWhenLogged,
    AwakeSwitchChooses,
    ChildStartChooses,
    EmptyStartKeepsChoice,
}

impl Fault {
    /// The traps that 01 names.
    pub const TRAPS: [Fault; 5] = [
        Fault::SettleAfterEachMedia,
        Fault::CountAborts,
        Fault::GuardReadWhenLogged,
        Fault::AnchorAwakeAtEnd,
        Fault::LinksBeforeAllMediaTicked,
    ];

    /// Faults that go against the statements on shown counts.
    pub const AGAINST_COUNTS: [Fault; 4] = [
        Fault::PauseMovesClock,
        Fault::NewestLineFirst,
        Fault::LastLineNotTaken,
        Fault::AnchorStartsLate,
    ];

    /// Faults that go against the words of Req 01.
    pub const AGAINST_CHOICES: [Fault; 8] = [
        Fault::OwnerWithoutEffect,
        Fault::DefaultChosenWithoutStart,
        Fault::SleepClearsChoice,
        Fault::NearestSwitchOnly,
        Fault::ChoiceReadWhenLogged,
        Fault::AwakeSwitchChooses,
        Fault::ChildStartChooses,
        Fault::EmptyStartKeepsChoice,
    ];
}

/// A switch above the owner of a link, as it was when the link was asked.
#[derive(Debug, Clone, Copy, PartialEq, Eq)]
pub struct SwitchAbove {
    /// Its child on the path to the owner.
    pub child: usize,
    pub choice: Option<usize>,
    pub is_awake: bool,
}

impl SwitchAbove {
    pub fn lets_fire(self) -> bool {
        self.choice == Some(self.child)
    }
}

/// A link whose line was taken and whose guard held.
#[derive(Debug, Clone, PartialEq, Eq)]
pub struct Heard {
    pub owner: usize,
    /// The nearest first.
    pub switches: Vec<SwitchAbove>,
    /// The firings so far.
    pub firings: usize,
}

/// What a start had to do with the choice of a switch.
#[derive(Debug, Clone, Copy, PartialEq, Eq)]
pub enum StartSeen {
    OfSleepingSwitch {
        old: Option<usize>,
        new: Option<usize>,
    },
    OfAwakeSwitch {
        choice: Option<usize>,
    },
    /// Of a child of a switch, directly.
    OfChild {
        child: usize,
        choice: Option<usize>,
    },
}

#[derive(Debug, Default)]
pub struct Probe {
    pub fault: Option<Fault>,
    /// The rules that guards and binds asked for, and whether each held.
    pub decided: Vec<(usize, bool)>,
    pub heard: Vec<Heard>,
    /// The starts, and whether each was by a link.
    pub starts: Vec<(StartSeen, bool)>,
}

impl Probe {
    pub fn with_fault(fault: Fault) -> Self {
        Probe { fault: Some(fault), ..Probe::default() }
    }
}
