//! Ours: the published Rust has no text for `CsiFrame`. It holds the fields that the window buffer reads, and a flag.

use crate::ids::{SessionId, SourceId};

/// One observation, as far as the window buffer reads it.
#[derive(Debug, Clone, PartialEq)]
pub struct CsiFrame {
    pub session_id: SessionId,
    pub source_id: SourceId,
    pub timestamp_ns: u64,
    pub subcarrier_count: u16,
    pub amplitude: Vec<f32>,
    pub phase: Vec<f32>,
    pub i_values: Vec<f32>,
    pub q_values: Vec<f32>,
    pub quality_score: f32,
    /// 1 when the frame may be looked at.
    pub flag: u8,
}

impl CsiFrame {
    /// A frame is exposable exactly when its flag is 1.
    pub fn is_exposable(&self) -> bool {
        self.flag == 1
    }
}
