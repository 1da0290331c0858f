//! Wrong answers, to be planted between a call and the comparison.
//!
//! Each plant changes what a right call left behind. The comparison has to
//! catch every one of them; those that the original can see are caught by it
//! alone too.

mod altered;
mod compiles;
mod navigations;
mod slips;
mod validations;

use crate::case::Case;
use crate::generate::Stream;
use crate::run::Outcome;
pub use altered::{Altered, UNALTERED, altered};
pub use slips::{SLIPS, Slip};

/// One way of being wrong.
#[derive(Clone, Copy)]
pub struct Plant {
    /// What is wrong.
    pub name: &'static str,
    /// The cases it is tried on.
    pub stream: Stream,
    /// Whether the original alone shows it, on some case at least.
    pub seen_by_original: bool,
    /// The outcome made wrong, or nothing where the case has no room for it.
    pub apply: fn(&Case, &Outcome) -> Option<Outcome>,
}

/// All plants.
pub fn all() -> Vec<Plant> {
    [validations::PLANTS, navigations::PLANTS, compiles::PLANTS].concat()
}

/// A plant that the original can see.
const fn seen(
    name: &'static str,
    stream: Stream,
    apply: fn(&Case, &Outcome) -> Option<Outcome>,
) -> Plant {
    Plant {
        name,
        stream,
        seen_by_original: true,
        apply,
    }
}

/// A plant that only the second judge can see.
const fn unseen(
    name: &'static str,
    stream: Stream,
    apply: fn(&Case, &Outcome) -> Option<Outcome>,
) -> Plant {
    Plant {
        seen_by_original: false,
        ..seen(name, stream, apply)
    }
}

/// The outcome with a change, where that changes anything.
fn changed(outcome: &Outcome, change: impl FnOnce(&mut Outcome) -> Option<()>) -> Option<Outcome> {
    let mut wrong = outcome.clone();
    change(&mut wrong)?;
    (wrong != *outcome).then_some(wrong)
}
