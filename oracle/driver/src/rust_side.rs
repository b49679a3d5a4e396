//! The Rust, fed the same calls: its window buffer, its four detectors one by one, and a whole pipeline.

use crate::engine::{bits, float, Engine};
use crate::script::{Frame, New};
use rvcsi_core::{CsiEvent, CsiEventKind, CsiFrame, CsiWindow, IdGenerator, SessionId, SourceId};
use rvcsi_events::{
    BaselineDriftConfig, BaselineDriftDetector, EventDetector, EventPipeline, MotionConfig, MotionDetector, PresenceConfig,
    PresenceDetector, QualityConfig, QualityDetector, WindowBuffer, WindowBufferConfig,
};

pub enum Detector {
    Presence(PresenceDetector),
    Motion(MotionDetector),
    Quality(QualityDetector),
    Drift(BaselineDriftDetector),
}

impl Detector {
    /// Panics where the Rust's constructor does.
    fn new(kind: u8, w: &[u32; 4]) -> Detector {
        match kind {
            0 => Detector::Presence(PresenceDetector::with_config(PresenceConfig {
                on_threshold: float(w[0]),
                off_threshold: float(w[1]),
                enter_windows: w[2],
                exit_windows: w[3],
            })),
            1 => Detector::Motion(MotionDetector::with_config(MotionConfig {
                on_threshold: float(w[0]),
                off_threshold: float(w[1]),
                debounce_windows: w[2],
            })),
            2 => Detector::Quality(QualityDetector::with_config(QualityConfig {
                drop_threshold: float(w[0]),
                debounce_windows: w[1],
                calib_windows: w[2],
            })),
            _ => Detector::Drift(BaselineDriftDetector::with_config(BaselineDriftConfig {
                drift_threshold: float(w[0]),
                drift_windows: w[1],
                anomaly_threshold: float(w[2]),
                ewma_alpha: float(w[3]),
            })),
        }
    }

    fn on_window(&mut self, window: &CsiWindow, ids: &IdGenerator) -> Vec<CsiEvent> {
        match self {
            Detector::Presence(d) => d.on_window(window, ids),
            Detector::Motion(d) => d.on_window(window, ids),
            Detector::Quality(d) => d.on_window(window, ids),
            Detector::Drift(d) => d.on_window(window, ids),
        }
    }

    fn boxed(self) -> Box<dyn EventDetector> {
        match self {
            Detector::Presence(d) => Box::new(d),
            Detector::Motion(d) => Box::new(d),
            Detector::Quality(d) => Box::new(d),
            Detector::Drift(d) => Box::new(d),
        }
    }

    fn debug(&self) -> String {
        match self {
            Detector::Presence(d) => format!("{:?}", d),
            Detector::Motion(d) => format!("{:?}", d),
            Detector::Quality(d) => format!("{:?}", d),
            Detector::Drift(d) => format!("{:?}", d),
        }
    }
}

/// Does the Rust's constructor take these settings?
pub fn accepts(kind: u8, words: &[u32; 4]) -> bool {
    let words = *words;
    std::panic::catch_unwind(move || {
        Detector::new(kind, &words);
    })
    .is_ok()
}

/// Does the Rust's buffer take this many frames?
pub fn accepts_buffer(new: &New) -> bool {
    let new = new.clone();
    std::panic::catch_unwind(move || {
        RustSide::new(&new);
    })
    .is_ok()
}

pub struct RustSide {
    pub buffer: WindowBuffer,
    pub detectors: Vec<Detector>,
    ids: IdGenerator,
    pub pipeline: EventPipeline,
    /// No score has come near a presence threshold so far.
    pub far: bool,
    /// Times of the pending frames.
    times: Vec<u64>,
}

pub fn kind_number(kind: CsiEventKind) -> u8 {
    match kind {
        CsiEventKind::PresenceStarted => 0,
        CsiEventKind::PresenceEnded => 1,
        CsiEventKind::MotionDetected => 2,
        CsiEventKind::MotionSettled => 3,
        CsiEventKind::BaselineChanged => 4,
        CsiEventKind::SignalQualityDropped => 5,
        CsiEventKind::AnomalyDetected => 6,
        CsiEventKind::CalibrationRequired => 7,
        _ => 255,
    }
}

fn csi_frame(f: &Frame) -> CsiFrame {
    let floats = |list: &[u32]| -> Vec<f32> { list.iter().map(|b| float(*b)).collect() };
    CsiFrame {
        session_id: SessionId(f.session),
        source_id: SourceId(f.source.to_string()),
        timestamp_ns: f.time,
        subcarrier_count: f.subcarriers as u16,
        amplitude: floats(&f.amplitude),
        phase: floats(&f.phase),
        i_values: f.iq.iter().step_by(2).map(|b| float(*b)).collect(),
        q_values: f.iq.iter().skip(1).step_by(2).map(|b| float(*b)).collect(),
        quality_score: float(f.quality),
        flag: f.flag,
    }
}

impl RustSide {
    pub fn new(new: &New) -> RustSide {
        let session = SessionId(new.session);
        let source = SourceId(new.source.to_string());
        let cfg =
            WindowBufferConfig::new(new.max_frames as usize, new.max_duration).with_presence_threshold(float(new.threshold));
        RustSide {
            buffer: WindowBuffer::with_config(session, source.clone(), cfg),
            detectors: vec![],
            ids: IdGenerator::new(),
            pipeline: EventPipeline::new(session, source, cfg),
            far: true,
            times: vec![],
        }
    }

    pub fn add(&mut self, kind: u8, words: &[u32; 4]) {
        self.detectors.push(Detector::new(kind, words));
        self.pipeline.add_detector(Detector::new(kind, words).boxed());
    }

    /// A frame: the buffer's window and the whole pipeline's events.
    pub fn frame(&mut self, f: &Frame, accepted: bool) -> (Option<CsiWindow>, Vec<CsiEvent>) {
        let frame = csi_frame(f);
        if accepted {
            self.times.push(f.time);
        }
        let window = self.buffer.push(&frame, &self.ids);
        if window.is_some() {
            self.times.clear();
        }
        (window, self.pipeline.process_frame(&frame))
    }

    pub fn flush(&mut self) -> (Option<CsiWindow>, Vec<CsiEvent>) {
        self.times.clear();
        (self.buffer.flush(&self.ids), self.pipeline.flush())
    }

    /// A window given to each detector in order.
    pub fn judge(&mut self, window: &CsiWindow) -> Vec<CsiEvent> {
        let mut events = vec![];
        for d in &mut self.detectors {
            events.extend(d.on_window(window, &self.ids));
        }
        events
    }

    /// Does the Rust's state, as its Debug text shows it, hold what the model's does? The first that differs.
    pub fn state_differs(&self, engine: &Engine) -> Option<(String, String)> {
        let ours = buffer_text(engine, &self.times);
        let theirs = format!("{:?}", self.buffer);
        if ours != theirs {
            return Some((theirs, ours));
        }
        for (d, s) in self.detectors.iter().zip(&engine.slots) {
            let theirs = d.debug();
            let ours = slot_text(engine, s, &theirs);
            if ours != theirs {
                return Some((theirs, ours));
            }
        }
        None
    }
}

fn rows(engine: &Engine, store: usize) -> Vec<Vec<f32>> {
    let n = engine.buffer.subcarriers as usize;
    (0..engine.buffer.pending as usize)
        .map(|j| (0..n).map(|k| float(engine.stores[store][256 * j + k])).collect())
        .collect()
}

fn buffer_text(engine: &Engine, times: &[u64]) -> String {
    let b = &engine.buffer;
    let pending = b.pending as usize;
    let floats = |list: &[u32]| -> Vec<f32> { list[..pending].iter().map(|x| float(*x)).collect() };
    let count = if pending > 0 { Some(b.subcarriers) } else { None };
    let shown = if pending > 0 {
        (times.first(), times.last()) == (Some(&b.first), Some(&b.last))
    } else {
        times.is_empty()
    };
    format!(
        "WindowBuffer {{ session_id: SessionId({}), source_id: SourceId(\"{}\"), cfg: WindowBufferConfig {{ max_frames: {}, max_duration_ns: {}, presence_threshold: {:?} }}, subcarrier_count: {:?}, amplitudes: {:?}, phases: {:?}, qualities: {:?}, timestamps: {:?}, scales: {:?} }}{}",
        b.session,
        b.source,
        b.max_frames,
        b.max_duration,
        float(b.threshold),
        count,
        rows(engine, 0),
        rows(engine, 1),
        floats(&b.qualities),
        times,
        floats(&b.scales),
        if shown { "" } else { " (first and last time differ)" }
    )
}

/// The number after `low_streak: ` in a text.
fn low_streak(text: &str) -> u32 {
    text.split("low_streak: ")
        .nth(1)
        .and_then(|t| t.split(',').next())
        .and_then(|t| t.parse().ok())
        .unwrap_or(0)
}

fn slot_text(engine: &Engine, s: &crate::engine::Slot, theirs: &str) -> String {
    let w = &s.words;
    match s.kind {
        0 => format!(
            "PresenceDetector {{ cfg: PresenceConfig {{ on_threshold: {:?}, off_threshold: {:?}, enter_windows: {}, exit_windows: {} }}, state: {}, streak: {} }}",
            float(w[0]),
            float(w[1]),
            w[2],
            w[3],
            if s.flag != 0 { "Present" } else { "Absent" },
            s.streak
        ),
        1 => format!(
            "MotionDetector {{ cfg: MotionConfig {{ on_threshold: {:?}, off_threshold: {:?}, debounce_windows: {} }}, state: {}, streak: {} }}",
            float(w[0]),
            float(w[1]),
            w[2],
            if s.flag != 0 { "Moving" } else { "Settled" },
            s.streak
        ),
        2 => {
            // Ours is held at the larger count; the Rust's goes on from there.
            let held = w[1].max(w[2]);
            let streak = if s.streak == held { low_streak(theirs).max(held) } else { s.streak };
            format!(
                "QualityDetector {{ cfg: QualityConfig {{ drop_threshold: {:?}, debounce_windows: {}, calib_windows: {} }}, low_streak: {}, dropped_emitted: {}, calib_emitted: {} }}",
                float(w[0]),
                w[1],
                w[2],
                streak,
                s.flag != 0,
                s.calib
            )
        }
        _ => {
            let baseline: Option<Vec<f32>> = match s.flag {
                0 => None,
                v => Some(engine.stores[2][..v as usize - 1].iter().map(|b| float(*b)).collect()),
            };
            format!(
                "BaselineDriftDetector {{ cfg: BaselineDriftConfig {{ drift_threshold: {:?}, drift_windows: {}, anomaly_threshold: {:?}, ewma_alpha: {:?} }}, baseline: {:?}, drift_streak: {} }}",
                float(w[0]),
                w[1],
                float(w[2]),
                float(w[3]),
                baseline,
                s.streak
            )
        }
    }
}

/// Equal floats: both zeros are one, all NaN are one.
pub fn same(a: f32, b: f32) -> bool {
    bits(a) == bits(b) || a == b
}
