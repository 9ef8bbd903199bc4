//! A reference bench model of the two-channel axis monitor of document 01, with requests W1,
//! "Spindles with gear stages", W2, "A spindle that only shows n<nx", W3, "The steady door
//! lamp", W4, "Cause codes in one order", W6, "Safe direction", and W7, "New limits without
//! stopping", of document 02. W5, "Cam bits by arithmetic", is of how the proved monitor reckons,
//! and changes no word.
//!
//! The modules stand in document 01's order and use its words. Each function quotes the
//! sentence that it stands for; behind `W1:` to `W7:` stands one of the request.
//!
//! In an expression `paper!(r, right, Deviation => wrong, ..)` the first part is the papers'.
//! The lines behind it are wrong programs that a good kit notices; a reader of the monitor
//! may pass them over, and the compiler does so too: with [`Paper`] they fold away.

// Document 01, from top to bottom.
pub mod words;

pub mod whole;

pub mod machine_data;

pub mod list;

pub mod gear;

pub mod stop;

pub mod selection;

pub mod direction;

pub mod causes;

pub mod nx;

pub mod channel;

pub mod device;

pub mod log;

pub mod listing;

// Wrong readings of it, to try kits with.
pub mod deviation;

// Kits as people write them.
pub mod kit;

// Kits as timing pictures.
pub mod plot;

// Kits that were chosen.
pub mod conformance;

// Calls that were chosen, for what no kit shows.
pub mod script;

// Kits by chance.
pub mod random;

// The proved monitor, to compare with.
#[cfg(feature = "proved")]
pub mod proved;

pub use channel::{Channel, Cycle, Report};
pub use deviation::{Deviant, Deviation, Paper, Reading};
pub use list::Refusal;
pub use machine_data::MachineData;
