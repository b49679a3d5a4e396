//! The Rust: its pipeline on the same frames, and a plain reader and writer of the recording format, which it does not have.

use crate::ours::{Frames, Lists};
use rvcsi_core::{CsiEventKind, CsiFrame, SessionId, SourceId};
use rvcsi_events::EventPipeline;
use std::io::Write;

pub fn root(values: &[f64], out: &mut [f64]) {
    for (o, v) in out.iter_mut().zip(values) {
        *o = v.sqrt();
    }
}

pub fn narrow(values: &[f64], out: &mut [f32]) {
    for (o, v) in out.iter_mut().zip(values) {
        *o = *v as f32;
    }
}

/// As `close` of window_buffer.rs has it.
pub fn score(values: &[f32], threshold: f32, out: &mut [f32]) {
    for (o, v) in out.iter_mut().zip(values) {
        let z = (v - threshold) * 20.0;
        *o = (1.0 / (1.0 + (-z).exp())).clamp(0.0, 1.0);
    }
}

/// The frames of the lists, each a frame of the Rust.
pub fn ring(f: &Frames) -> Vec<CsiFrame> {
    (0..f.ring)
        .map(|j| {
            let row = |list: &[f32], n: usize| list[j * n..(j + 1) * n].to_vec();
            let pairs = row(&f.pairs, 2 * f.pair_count);
            CsiFrame {
                session_id: SessionId(1),
                source_id: SourceId("1".to_string()),
                timestamp_ns: 0,
                subcarrier_count: f.subcarriers as u16,
                amplitude: row(&f.amplitude, f.subcarriers),
                phase: row(&f.phase, f.subcarriers),
                i_values: pairs.iter().step_by(2).copied().collect(),
                q_values: pairs.iter().skip(1).step_by(2).copied().collect(),
                quality_score: 0.75,
                flag: 1,
            }
        })
        .collect()
}

fn pipeline() -> EventPipeline {
    EventPipeline::with_defaults(SessionId(1), SourceId("1".to_string()))
}

fn windows(p: &EventPipeline) -> u64 {
    p.recent_windows().last().map_or(0, |w| w.window_id.0 + 1)
}

/// Windows and events of a fresh pipeline given `count` frames, from frame `start` on.
pub fn frames(ring: &mut [CsiFrame], start: usize, count: u64) -> [u64; 2] {
    let mut p = pipeline();
    let mut at = start;
    let mut time = 0;
    let mut events = 0;
    for _ in 0..count {
        let frame = &mut ring[at];
        frame.timestamp_ns = time;
        events += p.process_frame(frame).len() as u64;
        time += 1_000_000;
        at += 1;
        if at == ring.len() {
            at = start;
        }
    }
    [windows(&p), events]
}

// ---- records

pub struct Header {
    session: u64,
    source: u64,
    time: u64,
    flag: u64,
    subcarriers: usize,
    pairs: usize,
    quality: u32,
}

fn number(input: &[u8], at: &mut usize) -> Option<u64> {
    let mut value = 0u64;
    for i in 0..10 {
        let b = *input.get(*at)?;
        *at += 1;
        if i == 9 && b > 1 || i > 0 && b == 0 {
            return None;
        }
        value |= u64::from(b & 127) << (7 * i);
        if b < 128 {
            return Some(value);
        }
    }
    None
}

fn words(input: &[u8], out: &mut [u32]) {
    for (o, b) in out.iter_mut().zip(input.chunks_exact(4)) {
        *o = u32::from_le_bytes([b[0], b[1], b[2], b[3]]);
    }
}

fn read_one(input: &[u8], at: &mut usize, l: &mut Lists) -> Option<Header> {
    let session = number(input, at)?;
    let source = number(input, at)?;
    let time = number(input, at)?;
    let flag = number(input, at)?;
    let subcarriers = number(input, at)?;
    let pairs = number(input, at)?;
    if flag > 1 || subcarriers > 256 || pairs > 256 {
        return None;
    }
    let (n, m) = (subcarriers as usize, pairs as usize);
    let body = input.get(*at..*at + 4 + 8 * n + 8 * m)?;
    let (quality, rest) = body.split_at(4);
    let (a, rest) = rest.split_at(4 * n);
    let (p, q) = rest.split_at(4 * n);
    words(a, &mut l.amplitudes);
    words(p, &mut l.phases);
    words(q, &mut l.pairs);
    *at += body.len();
    let quality = u32::from_le_bytes([quality[0], quality[1], quality[2], quality[3]]);
    Some(Header {
        session,
        source,
        time,
        flag,
        subcarriers: n,
        pairs: m,
        quality,
    })
}

/// Records and subcarriers read, in `rounds` rounds over the input.
pub fn read(rounds: u64, input: &[u8], l: &mut Lists) -> [u64; 2] {
    let mut tally = [0; 2];
    for _ in 0..rounds {
        let mut at = 0;
        while let Some(h) = read_one(input, &mut at, l) {
            tally[0] += 1;
            tally[1] += h.subcarriers as u64;
        }
    }
    tally
}

fn put(out: &mut [u8], at: &mut usize, bytes: &[u8]) -> Option<()> {
    out.get_mut(*at..*at + bytes.len())?.copy_from_slice(bytes);
    *at += bytes.len();
    Some(())
}

fn put_number(out: &mut [u8], at: &mut usize, v: u64) -> Option<()> {
    let mut rest = v;
    while rest > 127 {
        put(out, at, &[128 | (rest & 127) as u8])?;
        rest >>= 7;
    }
    put(out, at, &[rest as u8])
}

fn put_words(out: &mut [u8], at: &mut usize, words: &[u32]) -> Option<()> {
    let room = out.get_mut(*at..*at + 4 * words.len())?;
    for (o, w) in room.chunks_exact_mut(4).zip(words) {
        o.copy_from_slice(&w.to_le_bytes());
    }
    *at += 4 * words.len();
    Some(())
}

pub fn write_one(out: &mut [u8], at: &mut usize, time: u64, quality: u32, a: &[u32], p: &[u32], q: &[u32]) -> Option<()> {
    for v in [1, 1, time, 1, a.len() as u64, q.len() as u64 / 2] {
        put_number(out, at, v)?;
    }
    put_words(out, at, &[quality])?;
    put_words(out, at, a)?;
    put_words(out, at, p)?;
    put_words(out, at, q)
}

/// The place after `count` records, a millisecond apart.
pub fn write(count: u64, out: &mut [u8], a: &[u32], p: &[u32], q: &[u32]) -> usize {
    let mut at = 0;
    for i in 0..count {
        let before = at;
        if write_one(out, &mut at, 1_000_000 * i, 0x3f40_0000, a, p, q).is_none() {
            return before;
        }
    }
    at
}

// ---- a recording

fn fill(out: &mut Vec<f32>, bits: impl Iterator<Item = u32>) {
    out.clear();
    out.extend(bits.map(f32::from_bits));
}

fn refill(frame: &mut CsiFrame, h: &Header, l: &Lists) {
    frame.timestamp_ns = h.time;
    frame.subcarrier_count = h.subcarriers as u16;
    frame.quality_score = f32::from_bits(h.quality);
    frame.flag = h.flag as u8;
    frame.session_id = SessionId(h.session);
    fill(&mut frame.amplitude, l.amplitudes[..h.subcarriers].iter().copied());
    fill(&mut frame.phase, l.phases[..h.subcarriers].iter().copied());
    fill(&mut frame.i_values, l.pairs[..2 * h.pairs].iter().step_by(2).copied());
    fill(&mut frame.q_values, l.pairs[..2 * h.pairs].iter().skip(1).step_by(2).copied());
}

fn no_frame() -> CsiFrame {
    CsiFrame {
        session_id: SessionId(1),
        source_id: SourceId("1".to_string()),
        timestamp_ns: 0,
        subcarrier_count: 0,
        amplitude: vec![],
        phase: vec![],
        i_values: vec![],
        q_values: vec![],
        quality_score: 0.0,
        flag: 1,
    }
}

fn name(kind: CsiEventKind) -> &'static str {
    match kind {
        CsiEventKind::PresenceStarted => "presence-started",
        CsiEventKind::PresenceEnded => "presence-ended",
        CsiEventKind::MotionDetected => "motion-detected",
        CsiEventKind::MotionSettled => "motion-settled",
        CsiEventKind::BaselineChanged => "baseline-changed",
        CsiEventKind::SignalQualityDropped => "quality-dropped",
        CsiEventKind::AnomalyDetected => "anomaly",
        _ => "calibration",
    }
}

/// The program: the listing of a recording of one session and source, all of whose frames are taken.
pub fn listing(path: &str) -> std::io::Result<()> {
    let input = std::fs::read(path)?;
    let mut out = std::io::BufWriter::new(std::io::stdout().lock());
    let mut l = Lists::new();
    let mut p = pipeline();
    let mut frame = no_frame();
    let mut at = 0;
    let mut frames = 0;
    writeln!(out, "event,window,kind,time,confidence")?;
    loop {
        let h = read_one(&input, &mut at, &mut l);
        let events = match &h {
            Some(h) => {
                refill(&mut frame, h, &l);
                frame.source_id = SourceId(h.source.to_string());
                frames += 1;
                p.process_frame(&frame)
            }
            None => p.flush(),
        };
        for e in events {
            let window = e.evidence_window_ids.first().map_or(0, |w| w.0);
            writeln!(
                out,
                "{},{},{},{},{:08x}",
                e.event_id.0,
                window,
                name(e.kind),
                e.timestamp_ns,
                e.confidence.to_bits()
            )?;
        }
        if h.is_none() {
            break;
        }
    }
    writeln!(out, "end,{},{},0", frames, windows(&p))
}
