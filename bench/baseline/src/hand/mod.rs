//! The messages by hand: plain structs, each range and width a constant.
mod bsm;
mod cam;
mod enumerated;
mod list;
mod small;
mod strings;
mod wide;

pub use bsm::Bsm;
pub use cam::Cam;
pub use list::List;
pub use small::Small;
pub use strings::{Aligned, Shifted};
pub use wide::Wide;
