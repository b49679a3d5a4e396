//! Scripts: enumerated ones for each limit and its neighbours, and random ones from a seed.

use crate::engine::{answer, bits, float, Engine, Scalars, Wrong, LAST};
use crate::rng::Rng;
use crate::script::{Command, Frame, New, Script, NEEDED};

/// A script and the family it belongs to.
#[derive(Clone)]
pub struct Tagged {
    pub family: &'static str,
    pub script: Script,
}

pub const DEFAULTS: [[u32; 4]; 4] = [
    [0x3f33_3333, 0x3ee6_6666, 2, 3],
    [0x3d4c_cccd, 0x3ca3_d70a, 2, 0],
    [0x3ecc_cccd, 2, 4, 0],
    [0x3e19_999a, 3, 0x3f80_0000, 0x3dcc_cccd],
];

pub fn default_new() -> New {
    New {
        session: 1,
        source: 1,
        max_frames: 16,
        max_duration: 1_000_000_000,
        threshold: bits(0.02),
    }
}

fn lent_all() -> Command {
    Command::Lend(NEEDED.map(|n| n as u32))
}

/// A script in the making, with the state that it has led to.
struct Maker {
    script: Script,
    engine: Engine,
    reply: String,
}

impl Maker {
    /// What stands at the start of a script.
    fn fresh() -> Maker {
        Maker {
            script: vec![],
            engine: Engine::new(Wrong::Nothing),
            reply: String::new(),
        }
    }

    fn new(new: New) -> Maker {
        let mut m = Maker::fresh();
        m.push(Command::New(new));
        m
    }

    fn push(&mut self, c: Command) {
        let mut lines = vec![];
        answer(&mut self.engine, &c, &mut lines);
        if let Some(line) = lines.first() {
            self.reply = line.clone();
        }
        self.script.push(c);
    }

    fn add(&mut self, kind: u8, words: [u32; 4]) {
        self.push(Command::Add { kind, words });
    }

    fn add_all(&mut self) {
        for kind in 0..4 {
            self.add(kind, DEFAULTS[kind as usize]);
        }
    }

    fn forge(&mut self, code: u8, index: u8, value: u64) {
        self.push(Command::Forge { code, index, value });
    }

    fn frame(&mut self, f: Frame) {
        self.push(Command::Frame(f));
    }

    /// A look, unless it would show what was never filled.
    fn look(&mut self) {
        if !self.engine.look_unfixed() {
            self.push(Command::Look);
        }
    }

    fn done(self, family: &'static str) -> Tagged {
        Tagged {
            family,
            script: self.script,
        }
    }
}

/// A frame of session 1, source 1 with these lists.
fn frame(time: u64, quality: f32, amplitude: &[f32], phase: &[f32], iq: &[f32]) -> Frame {
    let words = |list: &[f32]| -> Vec<u32> { list.iter().map(|x| x.to_bits()).collect() };
    Frame {
        session: 1,
        source: 1,
        time,
        flag: 1,
        subcarriers: amplitude.len() as u32,
        pairs: iq.len() as u32 / 2,
        quality: quality.to_bits(),
        amplitude: words(amplitude),
        phase: words(phase),
        iq: words(iq),
    }
}

/// A plain frame of n subcarriers and p pairs whose amplitudes lie around `level`.
fn plain(rng: &mut Rng, time: u64, n: usize, p: usize, level: f32) -> Frame {
    let mut around = |k: usize| -> Vec<f32> { (0..k).map(|_| level * (0.8 + 0.4 * rng.unit())).collect() };
    let (a, iq) = (around(n), around(2 * p));
    let phase: Vec<f32> = (0..n).map(|_| 6.0 * rng.unit() - 3.0).collect();
    let quality = 0.2 + 0.8 * rng.unit();
    frame(time, quality, &a, &phase, &iq)
}

/// Finite values that are apt to go wrong.
const SPECIAL: [u32; 24] = [
    0x0000_0000, // 0
    0x8000_0000, // -0
    0x0000_0001, // smallest subnormal
    0x8000_0001,
    0x0000_0002,
    0x007f_ffff, // largest subnormal
    0x807f_ffff,
    0x0080_0000, // smallest normal
    0x7f7f_ffff, // largest
    0xff7f_ffff,
    0x7e80_0000,
    0x7f00_0000,
    0x3f80_0000, // 1
    0xbf80_0000,
    0x3f80_0001,
    0x3f7f_ffff,
    0x3a83_126f, // 0.001
    0x3a83_126e,
    0x3a83_1270,
    0x1e3c_e508, // 1e-20
    0x5f3c_e508,
    0x4b80_0000, // 2^24
    0x4b80_0001,
    0x3eaa_aaab,
];

const NOT_FINITE: [u32; 5] = [0x7f80_0000, 0xff80_0000, 0x7fc0_0000, 0x7f80_0001, 0xffff_ffff];

fn wild(rng: &mut Rng) -> u32 {
    match rng.below(8) {
        0..=3 => rng.pick(&SPECIAL),
        4 => loop {
            let b = rng.next() as u32;
            if float(b).is_finite() {
                return b;
            }
        },
        _ => (4.0 * rng.unit() - 2.0).to_bits(),
    }
}

fn wild_frame(rng: &mut Rng, time: u64, n: usize, p: usize) -> Frame {
    let mut f = plain(rng, time, n, p, 1.0);
    for x in f.amplitude.iter_mut().chain(&mut f.phase).chain(&mut f.iq) {
        *x = wild(rng);
    }
    if rng.one_in(2) {
        f.quality = wild(rng);
    }
    f
}

/// A frame that is refused with a number, or would be.
#[derive(Clone, Copy, PartialEq)]
enum Fault {
    Short,
    State,
    Count,
    Flag,
    Source,
    Width,
    Value,
    Time,
    Numbers,
}

/// Each set of faults of a frame: the first in 01's order wins, and nothing else changes.
fn refusals(rng: &mut Rng, out: &mut Vec<Tagged>) {
    use Fault::*;
    let free = [Short, State, Count, Flag, Source, Value, Numbers];
    for set in 0..1u32 << free.len() {
        for third in [None, Some(Width), Some(Time)] {
            let mut faults: Vec<Fault> = (0..free.len()).filter(|i| set >> i & 1 == 1).map(|i| free[i]).collect();
            faults.extend(third);
            if !faults.is_empty() {
                out.push(refused_frame(rng, &faults));
            }
        }
    }
}

fn refused_frame(rng: &mut Rng, faults: &[Fault]) -> Tagged {
    let has = |f: Fault| faults.contains(&f);
    let first = has(Fault::Time);
    // With nothing pending only a duration of 0 lets the frame close a window.
    let max_duration = if first && has(Fault::Numbers) { 0 } else { 50 };
    let mut m = Maker::new(New {
        max_frames: 3,
        max_duration,
        ..default_new()
    });
    m.add_all();
    let n = rng.from_to(1, 3) as usize;
    let p = rng.below(3) as usize;
    if max_duration > 0 {
        for t in [0, 20, 40] {
            m.frame(plain(rng, t, n, p, 2.0));
        }
        if !first {
            m.frame(plain(rng, 60, n, p, 2.0));
            m.frame(plain(rng, 61, n, p, 2.0));
        }
    }
    let mut f = plain(rng, 62, n, p, 2.0);
    for fault in faults {
        match fault {
            Fault::Short => {
                let mut lent = NEEDED.map(|k| k as u32);
                let k = rng.below(5) as usize;
                lent[k] = if rng.one_in(3) {
                    rng.below(lent[k] as u64) as u32
                } else {
                    lent[k] - 1
                };
                m.push(Command::Lend(lent));
            }
            Fault::State => {}
            Fault::Count => {}
            Fault::Flag => f.flag = rng.pick(&[0, 2, 255]),
            Fault::Source => {
                if rng.one_in(2) {
                    f.session = rng.pick(&[0, 2, LAST]);
                } else {
                    f.source = rng.pick(&[0, 2, LAST]);
                }
            }
            Fault::Width => {
                let wider = plain(rng, 62, n + 1, p, 2.0);
                f.subcarriers = wider.subcarriers;
                f.amplitude = wider.amplitude;
                f.phase = wider.phase;
            }
            Fault::Value => {}
            Fault::Time => f.time = LAST,
            Fault::Numbers => {
                if rng.one_in(2) {
                    m.forge(0, 0, LAST);
                } else {
                    m.forge(1, 0, LAST - rng.below(6));
                }
            }
        }
    }
    if has(Fault::Value) {
        let bad = rng.pick(&NOT_FINITE);
        let lists = [1, f.amplitude.len(), f.phase.len(), f.iq.len()];
        let mut place = rng.below(lists.iter().sum::<usize>() as u64) as usize;
        for x in std::iter::once(&mut f.quality)
            .chain(&mut f.amplitude)
            .chain(&mut f.phase)
            .chain(&mut f.iq)
        {
            if place == 0 {
                *x = bad;
                break;
            }
            place -= 1;
        }
    }
    if has(Fault::Count) {
        match rng.below(6) {
            0 => f.subcarriers = rng.pick(&[257, 600, u32::MAX]),
            1 => f.pairs = rng.pick(&[257, 600, u32::MAX, 0x8000_0000]),
            2 => {
                f.amplitude.pop();
            }
            3 => f.phase.push(0),
            4 => f.iq.push(0),
            _ => f.pairs += 1,
        }
    }
    let restore = if has(Fault::State) {
        let (code, index, bad, good) = one_bad_state(rng, &m.engine);
        m.forge(code, index, bad);
        Some((code, index, good))
    } else {
        None
    };
    m.look();
    m.frame(f.clone());
    m.look();
    if rng.one_in(3) {
        m.frame(f);
    }
    // Mended, all goes on as if nothing had been.
    if let Some((code, index, good)) = restore {
        m.forge(code, index, good);
    }
    m.push(lent_all());
    if has(Fault::Numbers) {
        m.forge(0, 0, 7);
        m.forge(1, 0, 9);
    }
    m.frame(plain(rng, 63, n, p, 2.0));
    m.frame(plain(rng, 64, n, p, 2.0));
    m.push(Command::Flush);
    m.look();
    m.done(if faults.len() < 3 {
        "refusals of a frame"
    } else {
        "three refusals and more"
    })
}

/// A field forged out of range, for an engine with the four default detectors: code, index, bad value, the value it had.
fn one_bad_state(rng: &mut Rng, e: &Engine) -> (u8, u8, u64, u64) {
    let all = bad_states(e);
    all[rng.below(all.len() as u64) as usize]
}

/// Every clause of "state out of range", at its limit and beyond, as code, index, bad value and the value it had.
fn bad_states(e: &Engine) -> Vec<(u8, u8, u64, u64)> {
    let b = &e.buffer;
    let mut all = vec![];
    let mut bad = |code: u8, index: u8, had: u64, values: &[u64]| {
        for v in values {
            all.push((code, index, *v, had));
        }
    };
    let f = |x: f32| x.to_bits() as u64;
    let beyond = [
        f(-1.0),
        f(1_000_000.06),
        f(f32::INFINITY),
        f(f32::NEG_INFINITY),
        0x7fc0_0000,
        0x8000_0001,
    ];
    bad(2, 0, b.max_frames, &[0, 1, 17, 1 << 32, LAST]);
    bad(4, 0, b.threshold as u64, &beyond);
    bad(5, 0, b.subcarriers, &[257, 1 << 40, LAST]);
    bad(6, 0, b.pending, &[b.max_frames, b.max_frames + 1, 16, 17, 1 << 33, LAST]);
    if b.pending > 0 {
        bad(2, 0, b.max_frames, &[b.pending]);
        bad(3, 0, b.max_duration, &[0]);
        bad(7, 0, b.first, &[LAST]);
        for j in [0, b.pending - 1] {
            bad(
                9,
                j as u8,
                b.qualities[j as usize] as u64,
                &[0x7f80_0000, 0xff80_0000, 0x7fc0_0000],
            );
            bad(
                10,
                j as u8,
                b.scales[j as usize] as u64,
                &[0x7f80_0000, 0xff80_0000, 0x7fc0_0000, 0x8000_0001, f(-1.0)],
            );
        }
    }
    bad(11, 0, e.recent_count, &[33, 34, 1 << 32, LAST]);
    bad(12, 0, e.slot_count, &[5, 6, 1 << 32, LAST]);
    for (i, s) in e.slots.iter().enumerate() {
        let i = i as u8;
        let w = |k: usize| s.words[k] as u64;
        let streak = s.streak as u64;
        match s.kind {
            0 => {
                bad(16, i, w(0), &beyond);
                bad(17, i, w(1), &beyond);
                bad(16, i, w(0), &[w(1), w(1) - 1]);
                bad(17, i, w(1), &[w(0), w(0) + 1]);
                bad(18, i, w(2), &[0]);
                bad(19, i, w(3), &[0]);
                let count = if s.flag != 0 { w(3) } else { w(2) };
                bad(21, i, streak, &[count, count + 1, u32::MAX as u64]);
            }
            1 => {
                bad(16, i, w(0), &beyond);
                bad(17, i, w(1), &beyond);
                bad(16, i, w(0), &[w(1), w(1) - 1]);
                bad(17, i, w(1), &[w(0), w(0) + 1]);
                bad(18, i, w(2), &[0]);
                bad(21, i, streak, &[w(2), w(2) + 1, u32::MAX as u64]);
            }
            2 => {
                bad(16, i, w(0), &beyond);
                bad(17, i, w(1), &[0]);
                bad(18, i, w(2), &[0]);
                let held = w(1).max(w(2));
                bad(21, i, streak, &[held + 1, held + 2, u32::MAX as u64]);
            }
            _ => {
                bad(16, i, w(0), &beyond);
                bad(18, i, w(2), &beyond);
                bad(16, i, w(0), &[w(2), w(2) + 1]);
                bad(18, i, w(2), &[w(0), w(0) - 1]);
                bad(17, i, w(1), &[0]);
                bad(
                    19,
                    i,
                    w(3),
                    &[
                        0,
                        0x8000_0000,
                        0x8000_0001,
                        f(1.0) + 1,
                        f(f32::INFINITY),
                        0x7fc0_0000,
                        f(-0.5),
                    ],
                );
                bad(20, i, s.flag, &[258, 259, 1 << 40, LAST]);
                bad(21, i, streak, &[w(1), w(1) + 1, u32::MAX as u64]);
            }
        }
    }
    all
}

/// Every clause of 14, for frame, flush and adding; then mended.
fn states(rng: &mut Rng, out: &mut Vec<Tagged>) {
    let count = {
        let m = prepared(rng);
        bad_states(&m.engine).len()
    };
    for i in 0..count {
        let mut m = prepared(rng);
        let all = bad_states(&m.engine);
        let (code, index, bad, good) = all[i % all.len()];
        m.forge(code, index, bad);
        m.look();
        m.frame(plain(rng, 1000, 2, 1, 3.0));
        m.push(Command::Flush);
        m.add(0, DEFAULTS[0]);
        m.add(1, [0; 4]);
        m.look();
        m.forge(code, index, good);
        m.frame(plain(rng, 1001, 2, 1, 3.0));
        m.push(Command::Flush);
        m.look();
        out.push(m.done("states out of range"));
    }
    // A kind twice.
    for (to, from) in [(0, 1), (1, 0), (3, 2), (2, 0), (0, 3), (2, 3)] {
        let mut m = prepared(rng);
        m.forge(13, to, from);
        m.look();
        m.frame(plain(rng, 1000, 2, 1, 3.0));
        m.push(Command::Flush);
        m.add(3, DEFAULTS[3]);
        m.look();
        m.push(Command::New(default_new()));
        m.frame(plain(rng, 1000, 2, 1, 3.0));
        m.look();
        out.push(m.done("states out of range"));
    }
    // Values just in range.
    for i in 0..44 {
        let mut m = prepared(rng);
        let b = &m.engine.buffer;
        let held = [
            (2, 0, 16),
            (2, 0, b.pending + 1),
            (3, 0, 1),
            (4, 0, bits(1_000_000.0) as u64),
            (4, 0, 0x8000_0000),
            (7, 0, LAST - 1),
            (8, 0, LAST),
            (8, 0, 0),
            (9, 0, 0x7f7f_ffff),
            (9, 0, 0xff7f_ffff),
            (10, 0, 0x8000_0000),
            (10, 0, 0x7f7f_ffff),
            (16, 0, bits(1_000_000.0) as u64),
            (17, 0, 0x8000_0000),
            (18, 0, u32::MAX as u64),
            (20, 0, 1),
            (21, 0, 1),
            (20, 1, 1),
            (21, 1, 1),
            (21, 2, 4),
            (21, 2, 3),
            (20, 2, 1),
            (22, 2, 1),
            (21, 3, 2),
            (20, 3, 0),
            (20, 3, 1),
            (20, 3, 2),
            (20, 3, 257),
            (19, 3, bits(1.0) as u64),
            (19, 3, 1),
            (6, 0, 0),
            (6, 0, 1),
            (24, 0, (1 << 32) + 0x7fc0_0000),
            (24, 0, 0x7f80_0000),
            (25, 0, (256 << 32) + 0x7fc0_0000),
            (25, 0, 0x7f80_0000),
            (26, 0, 0x7f80_0000),
            (26, 0, (1 << 32) + 0x7fc0_0000),
            (27, 0, 0x7fc0_0000),
            (28, 0, (263 << 32) + 0x7fc0_0000),
            // Behind the pending frames nothing is looked at.
            (9, b.pending as u8, 0x7fc0_0000),
            (9, 15, 0x7f80_0000),
            (10, b.pending as u8, bits(-1.0) as u64),
            (10, 15, 0x7fc0_0000),
        ][i];
        m.forge(held.0, held.1, held.2);
        m.look();
        m.frame(plain(rng, 1000, 2, 1, 3.0));
        m.look();
        m.push(Command::Flush);
        m.look();
        for t in 0..6 {
            m.frame(plain(rng, 1010 + t, 2, 1, 3.0));
        }
        m.push(Command::Flush);
        m.look();
        out.push(m.done("states just in range"));
    }
}

/// Four detectors, some windows, two frames pending.
fn prepared(rng: &mut Rng) -> Maker {
    let mut m = Maker::new(New {
        max_frames: 4,
        max_duration: 1_000_000,
        ..default_new()
    });
    m.add_all();
    for t in 0..4 * rng.from_to(1, 3) + 2 {
        m.frame(plain(rng, t, 2, 1, 3.0));
    }
    m
}

/// Flush and adding: each set of their refusals.
fn other_refusals(rng: &mut Rng, out: &mut Vec<Tagged>) {
    for set in 0..16u32 {
        let has = |i: u32| set >> i & 1 == 1;
        let mut m = prepared(rng);
        if has(3) {
            m.push(Command::Flush);
        }
        if has(0) {
            let mut lent = NEEDED.map(|k| k as u32);
            lent[rng.below(5) as usize] -= 1;
            m.push(Command::Lend(lent));
        }
        let state = one_bad_state(rng, &m.engine);
        if has(1) {
            m.forge(state.0, state.1, state.2);
        }
        if has(2) {
            m.forge(0, 0, LAST);
        }
        m.look();
        m.push(Command::Flush);
        m.look();
        m.push(lent_all());
        if has(1) {
            m.forge(state.0, state.1, state.3);
        }
        m.forge(0, 0, 3);
        m.push(Command::Flush);
        m.look();
        out.push(m.done("refusals of a flush"));
    }
    for set in 0..8u32 {
        for kind in 0..4u8 {
            let has = |i: u32| set >> i & 1 == 1;
            let mut m = Maker::new(default_new());
            if has(2) {
                m.add(kind, DEFAULTS[kind as usize]);
            }
            m.add((kind + 1) % 4, DEFAULTS[(kind as usize + 1) % 4]);
            m.frame(plain(rng, 1, 2, 0, 3.0));
            let state = one_bad_state(rng, &m.engine);
            if has(0) {
                m.forge(state.0, state.1, state.2);
            }
            let mut words = DEFAULTS[kind as usize];
            if has(1) {
                words[0] = 0x7fc0_0000;
            }
            m.look();
            m.add(kind, words);
            m.look();
            if has(0) {
                m.forge(state.0, state.1, state.3);
            }
            m.add(kind, DEFAULTS[kind as usize]);
            m.push(Command::Flush);
            m.look();
            out.push(m.done("refusals of adding"));
        }
    }
}

/// Settings at and beside each limit of acceptance.
fn settings(rng: &mut Rng, out: &mut Vec<Tagged>) {
    let thresholds: Vec<u32> = vec![
        0x0000_0000,
        0x8000_0000,
        0x0000_0001,
        0x8000_0001,
        bits(0.5),
        bits(999_999.94),
        bits(1_000_000.0),
        bits(1_000_000.06),
        0x7f7f_ffff,
        0x7f80_0000,
        0xff80_0000,
        0x7fc0_0000,
        0xffc0_0000,
        bits(-1.0),
    ];
    // Buffer.
    for max_frames in [0, 1, 2, 3, 15, 16, 17, 18, 1 << 32, (1 << 32) + 2, LAST] {
        let mut m = Maker::new(default_new());
        m.frame(plain(rng, 5, 1, 0, 1.0));
        for max_duration in [0, 1, LAST] {
            m.push(Command::New(New {
                max_frames,
                max_duration,
                ..default_new()
            }));
            m.frame(plain(rng, 5, 1, 0, 1.0));
            m.frame(plain(rng, 6, 1, 0, 1.5));
        }
        m.look();
        out.push(m.done("settings of the buffer"));
    }
    let mut m = Maker::new(default_new());
    for t in &thresholds {
        m.push(Command::New(New {
            threshold: *t,
            max_frames: 2,
            ..default_new()
        }));
        m.look();
        m.frame(plain(rng, 5, 1, 0, 1.0));
        m.frame(plain(rng, 6, 1, 0, 1.5));
    }
    out.push(m.done("settings of the buffer"));
    // Detectors: each word alone at and beside its limits.
    for kind in 0..4u8 {
        let floats: &[usize] = match kind {
            0 | 1 => &[0, 1],
            2 => &[0],
            _ => &[0, 2, 3],
        };
        let counts: &[usize] = match kind {
            0 => &[2, 3],
            1 => &[2],
            2 => &[1, 2],
            _ => &[1],
        };
        let mut all: Vec<[u32; 4]> = vec![];
        let base = DEFAULTS[kind as usize];
        for w in floats {
            for t in &thresholds {
                let mut words = base;
                words[*w] = *t;
                all.push(words);
            }
        }
        for w in counts {
            for c in [0, 1, 2, u32::MAX] {
                let mut words = base;
                words[*w] = c;
                all.push(words);
            }
        }
        // On and off, anomaly and drift: equal, one float apart either way, both zeros, the largest.
        let (high, low) = match kind {
            0 | 1 => (0, 1),
            3 => (2, 0),
            _ => (0, 0),
        };
        if kind != 2 {
            for x in [bits(0.5), 1, bits(1_000_000.0) - 1] {
                for d in [-1i64, 0, 1] {
                    let mut words = base;
                    words[high] = x;
                    words[low] = (x as i64 + d) as u32;
                    all.push(words);
                }
            }
            for (h, l) in [(0, 0x8000_0000u32), (0x8000_0000, 0), (0, 0), (1, 0x8000_0000)] {
                let mut words = base;
                words[high] = h;
                words[low] = l;
                all.push(words);
            }
        }
        if kind == 3 {
            for a in [1, bits(1.0) - 1, bits(1.0), bits(1.0) + 1, bits(0.5), bits(2.0)] {
                let mut words = base;
                words[3] = a;
                all.push(words);
            }
        }
        for part in all.chunks(2) {
            let mut m = Maker::new(New {
                max_frames: 2,
                ..default_new()
            });
            for words in part {
                m.push(Command::New(New {
                    max_frames: 2,
                    ..default_new()
                }));
                m.add(kind, *words);
                m.add(kind, *words);
                m.look();
                for t in 0..6 {
                    let level = if t < 4 { 1.0 } else { 40.0 };
                    m.frame(plain(rng, t, 2, 0, level));
                }
                m.look();
            }
            out.push(m.done("settings"));
        }
    }
}

/// Clocks that stand, go back, jump and end, with durations at and beside each difference.
fn clocks(rng: &mut Rng, out: &mut Vec<Tagged>) {
    let starts = [0u64, 1, 1000, 1 << 63, LAST - 2, LAST - 1, LAST];
    for d in [0u64, 1, 2, 1000, 1_000_000_000, 1 << 63, LAST - 1, LAST] {
        for start in starts {
            let mut m = Maker::new(New {
                max_frames: 4,
                max_duration: d,
                ..default_new()
            });
            m.add_all();
            let at = |x: u64| start.saturating_add(x);
            for next in [
                at(0),
                at(d.saturating_sub(1)),
                at(d),
                at(d.saturating_add(1)),
                start.saturating_sub(1),
                start / 2,
                0,
                LAST,
                LAST - 1,
            ] {
                m.frame(plain(rng, start, 1, 1, 1.0));
                m.frame(plain(rng, next, 1, 1, 1.2));
                m.frame(plain(rng, rng.clone().pick(&[next, start, 0, LAST]), 1, 1, 1.1));
                m.push(Command::Flush);
            }
            m.look();
            out.push(m.done("clocks"));
        }
    }
    for max_frames in [2, 3, 15, 16] {
        let mut m = Maker::new(New {
            max_frames,
            max_duration: LAST,
            ..default_new()
        });
        m.add_all();
        for t in 0..50 {
            m.frame(plain(rng, t, 2, 0, 1.0));
            if t % 5 == 0 {
                m.look();
            }
        }
        m.push(Command::Flush);
        m.push(Command::Flush);
        m.look();
        out.push(m.done("clocks"));
    }
}

/// 0, 1, 2, 255, 256 and 257 subcarriers and pairs; lists one short and one long; widths that change.
fn widths(rng: &mut Rng, out: &mut Vec<Tagged>) {
    let sizes = [0usize, 1, 2, 255, 256, 257];
    for n in sizes {
        for p in sizes {
            let mut m = Maker::new(New {
                max_frames: if n + p > 300 { 2 } else { 3 },
                ..default_new()
            });
            m.add_all();
            for t in 0..if n + p > 300 { 5 } else { 10 } {
                m.frame(plain(rng, t, n, p, 1.0 + t as f32));
            }
            m.look();
            m.push(Command::Flush);
            m.look();
            out.push(m.done("widths"));
        }
    }
    for n in [0usize, 1, 2, 255, 256] {
        let mut m = Maker::new(New {
            max_frames: 16,
            ..default_new()
        });
        m.add_all();
        for t in 0..3 {
            m.frame(plain(rng, t, n, 1, 1.0));
        }
        for k in 0..9 {
            let mut f = plain(rng, 5, n, 1, 1.0);
            match k {
                0 => f.amplitude.push(0x3f80_0000),
                1 => {
                    f.amplitude.pop();
                }
                2 => f.phase.push(0x3f80_0000),
                3 => {
                    f.phase.pop();
                }
                4 => f.iq.push(0x3f80_0000),
                5 => {
                    f.iq.pop();
                }
                6 => f.subcarriers += 1,
                7 => f.pairs += 1,
                _ => f.amplitude = vec![0x3f80_0000; 600],
            }
            m.frame(f);
        }
        m.look();
        m.frame(plain(rng, 6, n, 2, 1.0));
        m.push(Command::Flush);
        m.look();
        out.push(m.done("widths"));
    }
    // A full store: 16 frames of 256.
    for changed in [3usize, 256, 255] {
        let mut m = Maker::new(New {
            max_frames: 16,
            max_duration: LAST,
            ..default_new()
        });
        m.add_all();
        for t in 0..17 {
            m.frame(plain(rng, t, 256, 0, 10.0));
        }
        m.look();
        m.push(Command::Flush);
        for t in 0..17 {
            m.frame(plain(rng, t, changed, 0, 10.0));
        }
        m.look();
        out.push(m.done("widths"));
    }
    // Longer stores than needed, and each one place short.
    for k in 0..5 {
        let mut m = Maker::new(New {
            max_frames: 2,
            ..default_new()
        });
        m.add_all();
        m.push(Command::Lend(NEEDED.map(|n| n as u32 + 8)));
        for t in 0..4 {
            m.frame(plain(rng, t, 3, 1, 10.0));
        }
        m.look();
        for short in [1, NEEDED[k] as u32] {
            let mut lent = NEEDED.map(|n| n as u32);
            lent[k] -= short;
            m.push(Command::Lend(lent));
            m.frame(plain(rng, 5, 3, 1, 10.0));
            m.push(Command::Flush);
            m.add(0, DEFAULTS[0]);
            m.look();
        }
        m.push(lent_all());
        m.frame(plain(rng, 6, 3, 1, 10.0));
        m.push(Command::Flush);
        m.look();
        out.push(m.done("stores"));
    }
}

/// Values: each special one in each list; each that isn't finite at the first, a middle and the last place.
fn values(rng: &mut Rng, out: &mut Vec<Tagged>) {
    for part in SPECIAL.chunks(2) {
        for list in 0..4 {
            let mut m = Maker::new(New {
                max_frames: 2,
                ..default_new()
            });
            m.add_all();
            let mut t = 0;
            for v in part {
                for mixed in [false, true] {
                    for _ in 0..4 {
                        let mut f = plain(rng, t, 3, 2, 1.0);
                        t += 1;
                        let target = match list {
                            0 => std::slice::from_mut(&mut f.quality),
                            1 => &mut f.amplitude[..],
                            2 => &mut f.phase[..],
                            _ => &mut f.iq[..],
                        };
                        for x in target.iter_mut() {
                            if !mixed || rng.one_in(2) {
                                *x = *v;
                            }
                        }
                        if list == 1 && rng.one_in(2) {
                            f.pairs = 0;
                            f.iq.clear();
                        }
                        m.frame(f);
                    }
                }
            }
            m.look();
            out.push(m.done("special values"));
        }
    }
    for bad in NOT_FINITE {
        let mut m = Maker::new(New {
            max_frames: 4,
            ..default_new()
        });
        m.frame(plain(rng, 0, 3, 2, 1.0));
        for place in 0..11 {
            for second in [false, true] {
                let mut f = plain(rng, 1, 3, 2, 1.0);
                let mut k = 0;
                for x in std::iter::once(&mut f.quality)
                    .chain(&mut f.amplitude)
                    .chain(&mut f.phase)
                    .chain(&mut f.iq)
                {
                    if k == place || (second && k > place && rng.one_in(2)) {
                        *x = bad;
                    }
                    k += 1;
                }
                m.frame(f);
            }
        }
        m.look();
        m.frame(plain(rng, 2, 3, 2, 1.0));
        m.push(Command::Flush);
        m.look();
        out.push(m.done("values not finite"));
    }
    // The last place of the widest frame.
    let mut m = Maker::new(default_new());
    for list in 0..3 {
        let mut f = plain(rng, 1, 256, 256, 1.0);
        let target = [&mut f.amplitude, &mut f.phase, &mut f.iq].into_iter().nth(list).unwrap();
        *target.last_mut().unwrap() = 0x7f80_0000;
        m.frame(f);
    }
    m.look();
    out.push(m.done("values not finite"));
    // Random wild values.
    for i in 0..60 {
        let mut m = Maker::new(New {
            max_frames: rng.from_to(2, 5),
            threshold: bits(rng.unit()),
            ..default_new()
        });
        m.add_all();
        let (n, p) = (rng.from_to(0, 4) as usize, if i % 2 == 0 { 0 } else { rng.below(4) as usize });
        for t in 0..24 {
            m.frame(wild_frame(rng, t, n, p));
        }
        m.push(Command::Flush);
        m.look();
        out.push(m.done("special values"));
    }
}

/// Counters near 2^64, and a window with six events.
fn counters(rng: &mut Rng, out: &mut Vec<Tagged>) {
    let numbers = [0u64, 1, 1 << 32, LAST - 3, LAST - 2, LAST - 1, LAST];
    let events = [
        0u64,
        1 << 63,
        LAST - 8,
        LAST - 7,
        LAST - 6,
        LAST - 5,
        LAST - 4,
        LAST - 1,
        LAST,
    ];
    for window in numbers {
        for event in events {
            let mut m = Maker::new(New {
                max_frames: 2,
                max_duration: 100,
                ..default_new()
            });
            six(&mut m);
            m.frame(frame(1, 0.9, &[1.0], &[0.0], &[]));
            m.frame(frame(2, 0.9, &[1.0], &[0.0], &[]));
            m.forge(0, 0, window);
            m.forge(1, 0, event);
            for t in 0..3 {
                m.frame(frame(3 + t, 0.1, &[if t % 2 == 0 { 2.0 } else { 60.0 }], &[0.5], &[]));
            }
            m.look();
            m.push(Command::Flush);
            for t in 0..4 {
                m.frame(frame(13 + t, 0.9, &[2.0], &[0.5], &[]));
            }
            m.push(Command::Flush);
            m.look();
            out.push(m.done("counters"));
        }
    }
    // A flush at each event number.
    for event in events {
        let mut m = Maker::new(default_new());
        m.add_all();
        m.frame(frame(1, 0.9, &[1.0], &[0.0], &[]));
        m.forge(1, 0, event);
        m.push(Command::Flush);
        m.look();
        out.push(m.done("counters"));
    }
    // Recent windows: 31, 32, 33 and many.
    for windows in [1u64, 31, 32, 33, 34, 70] {
        let mut m = Maker::new(New {
            max_frames: 2,
            ..default_new()
        });
        m.add_all();
        for t in 0..2 * windows {
            m.frame(plain(rng, t, 1, 0, 1.0));
        }
        m.look();
        out.push(m.done("recent windows"));
    }
}

/// Detectors that all speak in one window: six events.
fn six(m: &mut Maker) {
    m.add(0, [bits(0.6), bits(0.5), 1, 1]);
    m.add(1, [bits(0.05), bits(0.02), 1, 0]);
    m.add(2, [bits(0.4), 1, 1, 0]);
    m.add(3, [bits(0.15), 1, bits(0.5), bits(0.1)]);
}

/// Streaks at each count: runs of high and low windows of every length around it.
fn streaks(rng: &mut Rng, out: &mut Vec<Tagged>) {
    for enter in 1..=4u32 {
        for exit in 1..=4u32 {
            let mut m = Maker::new(New {
                max_frames: 2,
                ..default_new()
            });
            let order = rng.below(4) as u8;
            for k in 0..4u8 {
                let kind = (k + order) % 4;
                m.add(
                    kind,
                    match kind {
                        0 => [bits(0.7), bits(0.45), enter, exit],
                        1 => [bits(0.05), bits(0.02), enter, 0],
                        2 => [bits(0.4), enter, exit, 0],
                        _ => [bits(0.15), enter, bits(1.0), bits(0.1)],
                    },
                );
            }
            let mut t = 0;
            for run in [1, 2, 3, 4, 5, 1, 4, 2, 6] {
                for high in [true, false] {
                    for w in 0..run {
                        // Between the thresholds now and then: no streak survives that.
                        let middle = rng.one_in(9);
                        let step = if middle {
                            1.04
                        } else if high {
                            1.5
                        } else {
                            1.0
                        };
                        let level = if high && w % 2 == 0 { 14.0 } else { 10.0 };
                        let quality = if high { 0.1 } else { 0.8 };
                        m.frame(frame(t, quality, &[level, level], &[0.0, 1.0], &[]));
                        m.frame(frame(t + 1, quality, &[level * step, level * step], &[0.1, 1.0], &[]));
                        t += 2;
                    }
                    if rng.one_in(3) {
                        m.look();
                    }
                }
            }
            out.push(m.done("streaks"));
        }
    }
}

/// What a script finds at its start, and after a *new*: all is fresh, whatever was left.
fn starts(out: &mut Vec<Tagged>) {
    let own = |time: u64| Frame {
        session: 0,
        source: 0,
        ..frame(time, 0.25, &[2.0 + time as f32], &[0.5], &[])
    };
    for k in 0..5 {
        let mut short = NEEDED.map(|n| n as u32);
        short[k] -= 1;
        let mut m = Maker::fresh();
        m.look();
        m.frame(own(1));
        m.add_all();
        m.frame(own(999_999_999));
        m.look();
        m.frame(own(1_000_000_001));
        m.push(Command::Lend(short));
        m.forge(0, 0, 5);
        m.forge(1, 0, 6);
        m.push(Command::New(default_new()));
        m.look();
        m.frame(frame(1, 0.9, &[1.0], &[0.0], &[]));
        m.push(Command::Flush);
        m.push(Command::Lend(short));
        m.forge(0, 0, 7);
        m.forge(1, 0, 8);
        out.push(m.done("starts"));
    }
}

/// Sums whose order decides: large numbers whose squares sum to that of an odd number of 25 bits, so that the root is a tie of f32, and small ones
/// whose squares are lost one by one behind the large, and count where they are summed before them.
fn sums(rng: &mut Rng, out: &mut Vec<Tagged>) {
    for large_first in [true, false] {
        let ordered = |mut list: Vec<f32>| -> Vec<f32> {
            if !large_first {
                list.reverse();
            }
            list
        };
        for _ in 0..4 {
            // 3k, 4k, 5k; 5k is 1 more than a multiple of 4, so the tie goes down. The factor keeps distances below the largest threshold.
            let k = 4 * rng.from_to(838_861, 1_048_575) + 1;
            let (a, b) = ((3 * k) as f32 / 1024.0, (4 * k) as f32 / 1024.0);
            let tie = ((5 * k - 1) as f32) / 4096.0;
            let small = 0.17f32 / 1024.0;
            let mut list = vec![a, b];
            list.extend([small; 14]);
            let list = ordered(list);
            let mut iq = vec![a, b];
            iq.extend((0..15).flat_map(|_| [small, 0.0]));
            let mut full = vec![a, b];
            full.extend([small; 30]);
            out.push(summed(&list, &ordered(iq), &full, tie));
            // The root mean square of a baseline: a distance relative to it, at the anomaly threshold and a float above it.
            let further: Vec<f32> = list.iter().map(|x| 2.5 * x).collect();
            let distance = relative(&list, &further, 1000.0).1.expect("measured");
            for anomaly in [distance, distance.next_down()] {
                out.push(relative(&list, &further, anomaly).0);
            }
        }
        // The steps of a window: 2^24 and 1, and six that are lost behind them.
        let step = 1.7e-9f32;
        let mut levels = vec![16_777_215.0, 16_777_216.0];
        levels.extend([0.0, step, 0.0, step, 0.0, step, 0.0]);
        let mut m = Maker::new(New {
            max_frames: 9,
            ..default_new()
        });
        for (t, x) in ordered(levels).into_iter().enumerate() {
            m.frame(frame(t as u64, 0.9, &[x], &[0.0], &[1.0, 0.0]));
        }
        out.push(m.done("sums"));
    }
}

/// The list as numbers of a scale, as a step and as a distance from a baseline of zeros; the pairs as numbers of a scale.
fn summed(list: &[f32], iq: &[f32], full: &[f32], tie: f32) -> Tagged {
    let zeros = [0.0; 16];
    let mut m = Maker::new(New {
        max_frames: 2,
        ..default_new()
    });
    m.add(3, [bits(0.15), 1000, bits(tie), bits(0.1)]);
    let windows: [[(&[f32], &[f32]); 2]; 5] = [
        [(&zeros, &[]), (&zeros, &[])],
        [(list, &[]), (list, &[])],
        [(&zeros, &[1.0, 0.0]), (list, &[1.0, 0.0])],
        [(list, iq), (list, iq)],
        [(list, full), (list, full)],
    ];
    for (w, frames) in windows.iter().enumerate() {
        for (j, (amplitude, pairs)) in frames.iter().enumerate() {
            m.frame(frame(2 * w as u64 + j as u64, 0.9, amplitude, &zeros, pairs));
            m.look();
        }
    }
    m.done("sums")
}

/// A window of one list, then of another, and the distance that was measured.
fn relative(list: &[f32], further: &[f32], anomaly: f32) -> (Tagged, Option<f32>) {
    let mut m = Maker::new(New {
        max_frames: 2,
        ..default_new()
    });
    m.add(3, [bits(0.15), 1000, bits(anomaly), bits(0.1)]);
    for (t, l) in [list, list, further, further].into_iter().enumerate() {
        m.frame(frame(t as u64, 0.9, l, &[0.0; 16], &[]));
    }
    let distance = m.engine.distance;
    (m.done("sums"), distance)
}

/// The enumerated scripts.
pub fn enumerated(seed: u64) -> Vec<Tagged> {
    let mut rng = Rng::new(seed ^ 0x5eed);
    let mut out = vec![];
    refusals(&mut rng, &mut out);
    states(&mut rng, &mut out);
    other_refusals(&mut rng, &mut out);
    settings(&mut rng, &mut out);
    clocks(&mut rng, &mut out);
    widths(&mut rng, &mut out);
    values(&mut rng, &mut out);
    counters(&mut rng, &mut out);
    streaks(&mut rng, &mut out);
    starts(&mut out);
    sums(&mut rng, &mut out);
    out
}

fn accepted_settings(rng: &mut Rng, kind: u8) -> [u32; 4] {
    if rng.one_in(3) {
        return DEFAULTS[kind as usize];
    }
    let count = |rng: &mut Rng| rng.from_to(1, 4) as u32;
    let off = 0.6 * rng.unit();
    let on = (off + 0.01 + 0.4 * rng.unit()).min(1.0);
    match kind {
        0 => [bits(on), bits(off), count(rng), count(rng)],
        1 => [bits(on * 0.2), bits(off * 0.2), count(rng), 0],
        2 => [bits(rng.unit()), count(rng), count(rng), 0],
        _ => [
            bits(off * 0.5),
            count(rng),
            bits(on),
            bits(rng.pick(&[0.1, 0.5, 1.0, 0.9, 0.01, 1e-6, 0.3333])),
        ],
    }
}

fn add_some(rng: &mut Rng, m: &mut Maker) {
    let order = rng.below(24);
    let mut kinds = vec![0u8, 1, 2, 3];
    let mut left = order;
    for i in (1..4u64).rev() {
        let j = left % (i + 1);
        left /= i + 1;
        kinds.swap(i as usize, j as usize);
    }
    let count = if rng.one_in(3) { rng.below(4) } else { 4 };
    for kind in kinds.into_iter().take(count as usize) {
        let words = accepted_settings(rng, kind);
        m.add(kind, words);
    }
}

/// A short script of everything at random.
fn small(rng: &mut Rng) -> Tagged {
    let mut m = Maker::new(New {
        session: 1,
        source: 1,
        max_frames: rng.from_to(2, 16),
        max_duration: rng.pick(&[0, 1, 5, 30, 1000, LAST]),
        threshold: bits(rng.pick(&[0.02, 0.0, 0.5, 1.0, 100.0]) * rng.unit()),
    });
    add_some(rng, &mut m);
    let mut n = rng.below(6) as usize;
    let mut p = rng.below(4) as usize;
    let mut t = rng.pick(&[0, 1000, 1 << 40, 1 << 63, LAST - 60]);
    let calls = rng.from_to(10, 70);
    for _ in 0..calls {
        t = match rng.below(12) {
            0 => t,
            1 => t.saturating_sub(rng.below(20)),
            2 => t.saturating_add(rng.below(2000)),
            _ => t.saturating_add(rng.below(8)),
        };
        let t = if rng.one_in(90) { LAST } else { t };
        match rng.below(40) {
            0 => {
                n = rng.below(6) as usize;
                if !rng.one_in(3) {
                    m.push(Command::Flush);
                }
            }
            1 => p = rng.below(4) as usize,
            2 => m.push(Command::Flush),
            3 => {
                let kind = rng.below(4) as u8;
                let words = accepted_settings(rng, kind);
                m.add(kind, words);
            }
            4 | 5 => m.look(),
            6 => {
                let mut f = plain(rng, t, n, p, 1.0);
                f.flag = rng.below(3) as u8;
                f.session = rng.below(3);
                f.source = rng.below(3);
                m.frame(f);
            }
            7 => {
                let mut f = wild_frame(rng, t, n, p);
                f.quality = rng.pick(&NOT_FINITE);
                m.frame(f);
            }
            8 => {
                let f = plain(rng, t, n + 1, p, 1.0);
                m.frame(f);
            }
            9..=12 => m.frame(wild_frame(rng, t, n, p)),
            _ => {
                let level = rng.pick(&[1.0, 1.0, 5.0, 100.0, 1e-3, 30_000.0]);
                m.frame(plain(rng, t, n, p, level));
            }
        }
    }
    m.push(Command::Flush);
    m.look();
    m.done("everything at random")
}

/// The next float up or down, or the same.
fn nudged(rng: &mut Rng, x: f32) -> f32 {
    let y = match rng.below(3) {
        0 => x,
        1 => x.next_up(),
        _ => x.next_down(),
    };
    if y < 0.0 || !y.is_finite() || y > 1_000_000.0 {
        x.clamp(0.0, 1_000_000.0)
    } else {
        y
    }
}

/// Two thresholds, the first above, from values that were seen.
fn above_below(rng: &mut Rng, seen: &[f32]) -> (f32, f32) {
    let mut sorted: Vec<f32> = seen.to_vec();
    sorted.sort_by(f32::total_cmp);
    sorted.dedup();
    let high = rng.below(sorted.len() as u64) as usize;
    let low = rng.below(high as u64 + 1) as usize;
    let on = nudged(rng, sorted[high]);
    let off = nudged(rng, sorted[low]);
    if on > off {
        (on, off)
    } else {
        (off.next_up().min(1_000_000.0), off.next_down().max(0.0))
    }
}

/// Thresholds taken from scores, motions, qualities and distances that the same frames gave in a dry run, or a float beside them.
fn at_thresholds(rng: &mut Rng) -> Tagged {
    let new = New {
        max_frames: rng.from_to(2, 3),
        max_duration: LAST,
        threshold: bits(rng.pick(&[0.02, 0.0, 0.05, 0.3])),
        ..default_new()
    };
    let n = rng.from_to(1, 3) as usize;
    let p = if rng.one_in(3) { 1 } else { 0 };
    let levels: Vec<f32> = (0..4)
        .map(|_| rng.pick(&[1.0, 1.0, 4.0, 1e-3, 20.0]) * (0.5 + rng.unit()))
        .collect();
    let steps: Vec<f32> = [1.0, 1.02, 1.07, 1.3].iter().map(|s| s + 0.01 * rng.unit()).collect();
    let qualities: Vec<f32> = (0..3).map(|_| rng.unit()).collect();
    let mut frames = vec![];
    let mut kinds = (0, 0, 0);
    for w in 0..rng.from_to(10, 40) {
        if rng.one_in(2) {
            kinds = (rng.below(4) as usize, rng.below(4) as usize, rng.below(3) as usize);
        }
        let mut x = levels[kinds.0];
        for j in 0..new.max_frames {
            let list = vec![x; n];
            let iq = vec![x; 2 * p];
            frames.push(frame(16 * w + j, qualities[kinds.2], &list, &list, &iq));
            x *= steps[kinds.1];
        }
    }
    // Dry run.
    let mut dry = Maker::new(new.clone());
    let (mut seen, mut distances): (Vec<Scalars>, Vec<f32>) = (vec![], vec![]);
    let drift_windows = rng.pick(&[1u32, 1, 2, 3, 1000, 1000]);
    let alpha = rng.pick(&[0.1f32, 0.5, 1.0]);
    dry.add(3, [bits(0.15), drift_windows, bits(1.0), bits(alpha)]);
    for f in &frames {
        let windows = dry.engine.next_window;
        dry.engine.distance = None;
        dry.frame(f.clone());
        if dry.engine.next_window > windows {
            seen.push(dry.engine.recent.last().unwrap().clone());
            distances.extend(dry.engine.distance);
        }
    }
    let column = |f: fn(&Scalars) -> f32| -> Vec<f32> { seen.iter().map(f).collect() };
    let mut m = Maker::new(new);
    let (on, off) = above_below(rng, &column(|s| s.presence));
    m.add(0, [bits(on), bits(off), rng.from_to(1, 3) as u32, rng.from_to(1, 3) as u32]);
    let (on, off) = above_below(rng, &column(|s| s.motion));
    m.add(1, [bits(on), bits(off), rng.from_to(1, 3) as u32, 0]);
    let q = column(|s| s.quality);
    let q = q[rng.below(q.len() as u64) as usize];
    m.add(
        2,
        [bits(nudged(rng, q)), rng.from_to(1, 3) as u32, rng.from_to(1, 3) as u32, 0],
    );
    distances.retain(|d| d.is_finite() && *d <= 1_000_000.0);
    let first: Vec<f32> = distances
        .iter()
        .copied()
        .take(if drift_windows < 1000 { 2 } else { 40 })
        .collect();
    if !first.is_empty() {
        let (anomaly, drift) = above_below(rng, &first);
        m.add(3, [bits(drift), drift_windows, bits(anomaly), bits(alpha)]);
    }
    for f in frames {
        m.frame(f);
        if rng.one_in(40) {
            m.look();
        }
    }
    m.look();
    m.done("at thresholds")
}

/// A room: people come and go, furniture is moved, the link gets worse and better.
fn room(rng: &mut Rng, frames: u64, n: usize, p: usize, family: &'static str) -> Tagged {
    let plain_settings = rng.one_in(2);
    let mut m = Maker::new(New {
        session: 1,
        source: 1,
        max_frames: if plain_settings && rng.one_in(2) {
            16
        } else {
            rng.from_to(2, 12)
        },
        max_duration: rng.pick(&[1_000_000_000, 300_000_000, 500_000_000, LAST]),
        threshold: bits(0.02),
    });
    if plain_settings {
        m.add_all();
    } else {
        add_some(rng, &mut m);
    }
    let size = rng.pick(&[1.0f32, 15.0, 100.0, 2000.0]);
    let mut base: Vec<f32> = (0..n).map(|_| size * (0.2 + rng.unit())).collect();
    let mut t = rng.below(1 << 50);
    let (mut inside, mut left) = (false, rng.from_to(20, 120));
    let mut quality = 0.9f32;
    for _ in 0..frames {
        if left == 0 {
            inside = !inside;
            left = rng.from_to(10, 150);
            if rng.one_in(4) {
                let k = 0.7 + 0.8 * rng.unit();
                for b in base.iter_mut() {
                    *b *= k;
                }
            }
            if rng.one_in(3) {
                quality = rng.pick(&[0.9, 0.95, 0.3, 0.1, 0.41]);
            }
        }
        left -= 1;
        let noise = if inside { 0.15 } else { 0.004 };
        let mut shake = |x: f32| x * (1.0 + noise * (2.0 * rng.unit() - 1.0));
        let amplitude: Vec<f32> = base.iter().map(|b| shake(*b)).collect();
        let iq: Vec<f32> = (0..2 * p)
            .map(|k| shake(if n > 0 { base[k % n] * 0.7 } else { size }))
            .collect();
        let phase: Vec<f32> = (0..n).map(|k| shake(k as f32 * 0.3 - 1.0)).collect();
        t += 50_000_000 + rng.below(10_000_000);
        let q = (quality + 0.1 * (rng.unit() - 0.5)).clamp(0.0, 1.0);
        let mut f = frame(t, q, &amplitude, &phase, &iq);
        match rng.below(300) {
            0 => f.flag = 0,
            1 => f.source = 2,
            2 if m.engine.buffer.pending > 0 => {
                f.subcarriers += 1;
                f.amplitude.push(0x3f80_0000);
                f.phase.push(0);
            }
            3 if n > 0 => f.amplitude[0] = 0x7fc0_0000,
            4 => f.time = t - 200_000_000,
            5 => t += 5_000_000_000,
            _ => {}
        }
        if f.subcarriers as usize > 256 {
            continue;
        }
        m.frame(f);
        if rng.one_in(120) {
            m.look();
        }
        if rng.one_in(400) {
            m.push(Command::Flush);
        }
    }
    m.push(Command::Flush);
    m.look();
    m.done(family)
}

/// States forged within their range: the model alone knows what follows.
fn forged(rng: &mut Rng) -> Tagged {
    let mut m = Maker::new(New {
        max_frames: rng.from_to(3, 6),
        max_duration: 1_000_000,
        ..default_new()
    });
    add_some(rng, &mut m);
    let n = rng.from_to(1, 3) as usize;
    let mut t = 0;
    for _ in 0..rng.from_to(10, 40) {
        t += 1;
        if rng.one_in(5) {
            let b = &m.engine.buffer;
            let choice = rng.below(12);
            let slot = rng.below(4) as u8;
            let (code, index, value) = match choice {
                0 if b.pending > 0 => (6, 0, rng.below(b.pending)),
                1 => (3, 0, rng.pick(&[1, 2, 50, LAST])),
                2 => (2, 0, rng.from_to(b.pending + 1, 16)),
                3 => (4, 0, bits(rng.unit()) as u64),
                4 if b.pending > 0 => (7, 0, rng.pick(&[0, 5, t, LAST - 1])),
                5 => (8, 0, rng.pick(&[0, t, LAST])),
                6 if b.pending > 0 => (9, rng.below(b.pending) as u8, rng.pick(&SPECIAL) as u64),
                7 if b.pending > 0 => (10, rng.below(b.pending) as u8, (rng.pick(&SPECIAL) & 0x7fff_ffff) as u64),
                8 => (20, slot, rng.below(2)),
                9 => (21, slot, rng.below(2)),
                10 => (22, slot, rng.below(2)),
                _ => {
                    let store = rng.below(5);
                    let value = if rng.one_in(2) {
                        rng.pick(&SPECIAL)
                    } else {
                        rng.pick(&NOT_FINITE)
                    };
                    let place = if rng.one_in(4) { rng.below(4200) } else { rng.below(4) };
                    (24 + store as u8, 0, (place << 32) + value as u64)
                }
            };
            m.forge(code, index, value);
            if rng.one_in(3) {
                m.look();
            }
        }
        m.frame(plain(rng, t, n, 0, 2.0));
    }
    m.push(Command::Flush);
    m.look();
    m.done("forged states")
}

/// The i-th random script.
pub fn random(rng: &mut Rng, i: u64, room_frames: u64) -> Tagged {
    match i % 20 {
        0..=5 => {
            let (n, p) = (
                rng.from_to(1, 8) as usize,
                if rng.one_in(2) { 0 } else { rng.from_to(1, 4) as usize },
            );
            let frames = rng.from_to(room_frames / 2, room_frames * 3 / 2);
            room(rng, frames, n, p, "rooms")
        }
        6..=11 => small(rng),
        12..=16 => at_thresholds(rng),
        17 => forged(rng),
        18 => {
            let (n, p) = rng.pick(&[(64, 0), (64, 64), (16, 16), (56, 56)]);
            let frames = rng.from_to(room_frames / 20 + 4, room_frames / 6 + 8);
            room(rng, frames, n, p, "wide rooms")
        }
        _ => {
            let (n, p) = rng.pick(&[(256, 0), (256, 256), (255, 1), (2, 256)]);
            let frames = rng.from_to(room_frames / 40 + 4, room_frames / 20 + 8);
            room(rng, frames, n, p, "wide rooms")
        }
    }
}
