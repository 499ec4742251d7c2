//! Stands in for `serde`: two derives that are never called.

pub use derives::{Deserialize, Serialize};
