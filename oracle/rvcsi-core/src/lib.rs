//! Ours: the published Rust has no text for this file. It names the modules and what `rvcsi-events` takes from them.

mod event;
mod frame;
mod ids;
mod window;

pub use event::{CsiEvent, CsiEventKind, EventError};
pub use frame::CsiFrame;
pub use ids::{EventId, FrameId, IdGenerator, SessionId, SourceId, WindowId};
pub use window::{CsiWindow, WindowError};
