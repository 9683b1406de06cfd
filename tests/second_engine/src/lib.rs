//! Second engine of the Humulusbit report player: the NCL event machine and link engine of
//! `01-scope.md`, called 01 in the comments, with Req 01 of `02-change-requests.md`, written apart
//! from the first engine so that the two can be compared.

pub mod call;
pub mod check;
pub mod count_reports;
pub mod counts;
pub mod coverage;
pub mod document;
pub mod event;
pub mod fields;
pub mod generate;
pub mod printed;
pub mod probe;
pub mod random;
pub mod record;
pub mod refusal;
mod run;
pub mod session;
pub mod written;

pub use call::Call;
pub use counts::Condition;
pub use event::State;
pub use printed::{printed_run, printed_run_with};
pub use probe::{Fault, Probe};
pub use refusal::Refusal;
pub use session::{load, Reading, Session};
pub use written::WrittenSession;
