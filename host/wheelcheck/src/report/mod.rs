//! What came of the files, for a person and for a machine.

mod json;
mod progress;
mod summary;
mod text;

pub use json::json;
pub use progress::Progress;
pub use summary::Summary;
pub use text::{Style, failure, report, warning};
