//! Holds a program's answers to a script against the model and the Rust.

use crate::engine::{answer, bits, end_lines, event_line, float, list_line, scalars_line, Answer, Engine, Event, Window, Wrong};
use crate::rust_side::{accepts, accepts_buffer, kind_number, same, RustSide};
use crate::script::{Command, Frame, Script};
use rvcsi_core::{CsiEvent, CsiWindow};

/// Scores may differ by this much from the Rust's.
pub const NEAR: f64 = 1.0 / 65_536.0;

/// What was compared.
#[derive(Clone, Debug)]
pub struct Tally {
    pub scripts: u64,
    pub commands: u64,
    pub frames: u64,
    pub taken: u64,
    pub windows: u64,
    pub windows_by_model: u64,
    pub events: [u64; 8],
    pub events_by_model: u64,
    pub pipeline_windows: u64,
    pub pipeline_events: u64,
    pub pipelines: u64,
    /// by command (new, add, frame, flush) and number
    pub refusals: [[u64; 16]; 4],
    pub looks: u64,
    pub states: u64,
    pub constructors: u64,
    pub largest: f64,
    /// windows exactly at a threshold in force, and at a float neighbour of it: on, off, motion on, motion off, drop, drift, anomaly
    pub at: [u64; 7],
    pub beside: [u64; 7],
}

impl Tally {
    pub fn new() -> Tally {
        Tally {
            scripts: 0,
            commands: 0,
            frames: 0,
            taken: 0,
            windows: 0,
            windows_by_model: 0,
            events: [0; 8],
            events_by_model: 0,
            pipeline_windows: 0,
            pipeline_events: 0,
            pipelines: 0,
            refusals: [[0; 16]; 4],
            looks: 0,
            states: 0,
            constructors: 0,
            largest: 0.0,
            at: [0; 7],
            beside: [0; 7],
        }
    }
}

impl Default for Tally {
    fn default() -> Tally {
        Tally::new()
    }
}

#[derive(Clone, Debug)]
pub struct Difference {
    /// The command at which it showed.
    pub command: usize,
    pub what: String,
    pub right: String,
    pub given: String,
}

/// The lines of a program's answers.
pub struct Lines<'a> {
    lines: std::str::Lines<'a>,
}

impl<'a> Lines<'a> {
    pub fn new(text: &'a str) -> Lines<'a> {
        Lines { lines: text.lines() }
    }

    fn next(&mut self) -> &'a str {
        self.lines.next().unwrap_or("(no answer)")
    }

    /// Anything after the last answer.
    pub fn rest(&mut self) -> Option<&'a str> {
        self.lines.next()
    }
}

/// Equal fields; both zeros count as equal where `zeros` says so.
fn equal(right: &str, given: &str, zeros: bool) -> bool {
    if right == given {
        return true;
    }
    if !zeros {
        return false;
    }
    let zero = |t: &str| t == "80000000" || t == "00000000";
    let (r, g): (Vec<&str>, Vec<&str>) = (right.split(' ').collect(), given.split(' ').collect());
    r.len() == g.len() && r.iter().zip(&g).all(|(a, b)| a == b || (zero(a) && zero(b)))
}

struct Run<'a, 'b> {
    engine: Engine,
    rust: Option<RustSide>,
    /// The state before it was forged; with it the Rust waits until the state is that again.
    before: Option<Box<Engine>>,
    lines: &'a mut Lines<'b>,
    tally: &'a mut Tally,
    at: usize,
}

type Outcome = Result<(), Difference>;

impl Run<'_, '_> {
    fn differ(&self, what: &str, right: impl Into<String>, given: impl Into<String>) -> Outcome {
        Err(Difference {
            command: self.at,
            what: what.to_string(),
            right: right.into(),
            given: given.into(),
        })
    }

    fn expect(&mut self, what: &str, right: &str, zeros: bool) -> Outcome {
        let given = self.lines.next();
        if equal(right, given, zeros) {
            Ok(())
        } else {
            self.differ(what, right, given)
        }
    }

    /// The Rust takes part: the state is one that calls alone have made.
    fn natural(&self) -> bool {
        self.rust.is_some() && self.before.is_none()
    }

    /// A call went on from a forged state: the Rust cannot follow.
    fn moved(&mut self) {
        if self.before.is_some() {
            self.rust = None;
            self.before = None;
        }
    }

    fn forged(&mut self, code: u8, index: u8, value: u64) {
        if code < 2 {
            self.engine.forge(code, index, value);
            return;
        }
        if self.before.is_none() {
            self.before = Some(Box::new(self.engine.clone()));
        }
        self.engine.forge(code, index, value);
        if let Some(b) = &self.before {
            let e = &self.engine;
            let pending = e.buffer.pending as usize;
            let same_buffer = b.buffer == e.buffer || (pending == 0 && b.buffer.pending == 0 && empty_equal(b, e));
            if same_buffer
                && b.slots == e.slots
                && b.slot_count == e.slot_count
                && b.recent_count == e.recent_count
                && b.stores == e.stores
            {
                self.before = None;
            }
        }
    }

    fn refused(&mut self, command: usize, reply: u8) {
        self.tally.refusals[command][reply as usize] += 1;
    }

    fn command(&mut self, c: &Command) -> Outcome {
        self.tally.commands += 1;
        match c {
            Command::New(n) => {
                let reply = self.engine.make(n);
                self.refused(0, reply);
                let takes = accepts_buffer(n);
                self.tally.constructors += 1;
                if reply == 0 {
                    if !takes {
                        return self.differ("the Rust refuses this buffer, the model takes it", "", "");
                    }
                    self.rust = Some(RustSide::new(n));
                    self.before = None;
                }
                let right = format!("n {} 0 {}", reply, self.engine.counts());
                self.expect("reply to new", &right, false)
            }
            Command::Add { kind, words } => {
                let takes = accepts(*kind, words);
                self.tally.constructors += 1;
                let reply = self.engine.add(*kind, words);
                self.refused(1, reply);
                if reply == 0 {
                    if !takes {
                        return self.differ("the Rust refuses these settings, the model takes them", "", "");
                    }
                    self.moved();
                    if let Some(r) = &mut self.rust {
                        r.add(*kind, words);
                    }
                }
                let right = format!("a {} 0 {}", reply, self.engine.counts());
                self.expect("reply to add", &right, false)
            }
            Command::Lend(lengths) => {
                self.engine.lend(lengths);
                Ok(())
            }
            Command::Frame(f) => self.frame(f),
            Command::Flush => self.flush(),
            Command::Forge { code, index, value } => {
                self.forged(*code, *index, *value);
                Ok(())
            }
            Command::Look => self.look(),
        }
    }

    fn look(&mut self) -> Outcome {
        self.engine.unfixed |= self.engine.look_unfixed();
        self.tally.looks += 1;
        for right in self.engine.look() {
            let what = match right.as_bytes()[0] {
                b's' => "sums of the stores",
                b'd' => "a detector's state",
                _ => "the buffer's state",
            };
            self.expect(what, &right, false)?;
        }
        self.same_state()
    }

    fn same_state(&mut self) -> Outcome {
        if !self.natural() {
            return Ok(());
        }
        self.tally.states += 1;
        match self.rust.as_ref().and_then(|r| r.state_differs(&self.engine)) {
            Some((theirs, ours)) => self.differ("state of the Rust and of the model", theirs, ours),
            None => Ok(()),
        }
    }

    /// The presence score that the `w` line gives, read ahead.
    fn score_ahead(&self) -> Option<f32> {
        let line = self.lines.lines.clone().nth(1)?;
        let field = line.split(' ').nth(8)?;
        Some(float(u32::from_str_radix(field, 16).ok()?))
    }

    fn frame(&mut self, f: &Frame) -> Outcome {
        self.tally.frames += 1;
        let score = self.score_ahead();
        let natural = self.natural();
        let before_slots = self.engine.slots.clone();
        let a = self.engine.frame(f, &mut |_| score.unwrap_or(0.0));
        self.refused(2, a.reply);
        if a.reply == 0 {
            self.tally.taken += 1;
            self.moved();
        }
        // The Rust skips the frames of replies 2, 3 and 4 itself; the others are outside what it can be given.
        let by_rust = match (&mut self.rust, natural, a.reply) {
            (Some(r), true, 0 | 2 | 3 | 4) => Some(r.frame(f, a.reply == 0)),
            _ => None,
        };
        let right = format!("f {} {} {}", a.reply, a.place, self.engine.counts());
        self.expect("reply to a frame", &right, false)?;
        self.closed(a, by_rust, &before_slots)
    }

    fn flush(&mut self) -> Outcome {
        let score = self.score_ahead();
        let natural = self.natural();
        let before_slots = self.engine.slots.clone();
        let a = self.engine.flush(&mut |_| score.unwrap_or(0.0));
        self.refused(3, a.reply);
        if a.closed.is_some() {
            self.moved();
        }
        let by_rust = match (&mut self.rust, natural, a.reply) {
            (Some(r), true, 0) => Some(r.flush()),
            _ => None,
        };
        let right = format!("u {} 0 {}", a.reply, self.engine.counts());
        self.expect("reply to flush", &right, false)?;
        self.closed(a, by_rust, &before_slots)
    }

    /// The window and events after a call, ours against the model's and the Rust's.
    fn closed(
        &mut self,
        a: Answer,
        by_rust: Option<(Option<CsiWindow>, Vec<CsiEvent>)>,
        slots: &[crate::engine::Slot],
    ) -> Outcome {
        if let Some(r) = &self.rust {
            if self.before.is_none() && r.buffer.pending_frame_count() as u64 != self.engine.buffer.pending {
                let (theirs, ours) = (r.buffer.pending_frame_count(), self.engine.buffer.pending);
                return self.differ(
                    "pending frames of the Rust and of the model",
                    theirs.to_string(),
                    ours.to_string(),
                );
            }
        }
        let (window, events) = match a.closed {
            Some(closed) => closed,
            None => {
                return match by_rust {
                    Some((Some(w), _)) => self.differ("the Rust closes a window, the model does not", format!("{:?}", w), ""),
                    Some((None, e)) if !e.is_empty() => self.differ("the Rust's pipeline gives events", format!("{:?}", e), ""),
                    _ => Ok(()),
                };
            }
        };
        match by_rust {
            Some((Some(w), piped)) => {
                self.windows_agree(&window, &w)?;
                self.answer_window(&window, w.presence_score)?;
                self.judged(&window, &events, &w)?;
                self.piped(&window, &events, w.presence_score, &piped)?;
                self.tally.windows += 1;
                for e in &events {
                    self.tally.events[e.kind as usize] += 1;
                }
            }
            Some((None, _)) => return self.differ("the model closes a window, the Rust does not", "", ""),
            None => {
                let z = (window.scalars.motion - float(self.engine.buffer.threshold)) * 20.0;
                let exact = 1.0 / (1.0 + (-z as f64).exp());
                self.answer_window(&window, exact as f32)?;
                self.tally.windows_by_model += 1;
                self.tally.events_by_model += events.len() as u64;
            }
        }
        self.count_thresholds(&window, slots);
        for e in &events {
            self.expect("an event", &event_line(e), true)?;
        }
        Ok(())
    }

    /// The `w`, `m` and `v` lines, and the score against the Rust's and against 01's table.
    fn answer_window(&mut self, window: &Window, rust_score: f32) -> Outcome {
        let right = format!("{} {}", scalars_line("w", &window.scalars), window.n);
        self.expect("a window", &right, true)?;
        let score = window.scalars.presence;
        let apart = (score as f64 - rust_score as f64).abs();
        if apart.is_nan() || apart > NEAR {
            return self.differ(
                "presence score further than 2^-16 from the Rust's",
                format!("{:?}", rust_score),
                format!("{:?}", score),
            );
        }
        if apart > self.tally.largest {
            self.tally.largest = apart;
        }
        let by_table = self.engine.table_score(window.scalars.motion);
        if bits(by_table) != bits(score) {
            return self.differ(
                "presence score and the table rule",
                format!("{:08x}", bits(by_table)),
                format!("{:08x}", bits(score)),
            );
        }
        self.expect("mean amplitudes", &list_line("m", &window.mean), true)?;
        self.expect("phase variances", &list_line("v", &window.variance), true)
    }

    fn windows_agree(&mut self, ours: &Window, theirs: &CsiWindow) -> Outcome {
        let s = &ours.scalars;
        let lists = |a: &[f32], b: &[f32]| a.len() == b.len() && a.iter().zip(b).all(|(x, y)| same(*x, *y));
        let agree = s.session == theirs.session_id.0
            && s.source.to_string() == theirs.source_id.0
            && s.start == theirs.start_ns
            && s.end == theirs.end_ns
            && s.frames == theirs.frame_count as u64
            && same(s.motion, theirs.motion_energy)
            && same(s.quality, theirs.quality_score)
            && lists(&ours.mean, &theirs.mean_amplitude)
            && lists(&ours.variance, &theirs.phase_variance);
        if agree {
            Ok(())
        } else {
            self.differ(
                "window of the Rust and of the model",
                format!("{:?}", theirs),
                format!("{:?}", ours),
            )
        }
    }

    /// Our window, its score included, given to the Rust's detectors.
    fn judged(&mut self, window: &Window, events: &[Event], theirs: &CsiWindow) -> Outcome {
        let mut fed = theirs.clone();
        fed.presence_score = window.scalars.presence;
        let said = match &mut self.rust {
            Some(r) => r.judge(&fed),
            None => return Ok(()),
        };
        let agree = said.len() == events.len()
            && said.iter().zip(events).all(|(r, e)| {
                kind_number(r.kind) == e.kind
                    && r.session_id.0 == e.session
                    && r.source_id.0 == e.source.to_string()
                    && r.timestamp_ns == e.time
                    && same(r.confidence, e.confidence)
                    && r.evidence_window_ids == [fed.window_id]
            })
            && said.windows(2).all(|w| w[1].event_id.0 == w[0].event_id.0 + 1);
        if agree {
            Ok(())
        } else {
            self.differ(
                "events of the Rust's detectors and of the model",
                format!("{:?}", said),
                format!("{:?}", events),
            )
        }
    }

    /// The Rust's whole pipeline, while every score was further than 2^-16 from the presence thresholds.
    fn piped(&mut self, window: &Window, events: &[Event], score: f32, piped: &[CsiEvent]) -> Outcome {
        let thresholds: Vec<f64> = self
            .engine
            .slots
            .iter()
            .filter(|s| s.kind == 0)
            .flat_map(|s| [float(s.words[0]) as f64, float(s.words[1]) as f64])
            .collect();
        let recent = match &mut self.rust {
            Some(r) => {
                r.far &= thresholds.iter().all(|t| (score as f64 - t).abs() > NEAR);
                if !r.far {
                    return Ok(());
                }
                r.pipeline.recent_windows().last().cloned()
            }
            None => return Ok(()),
        };
        let close = |kind: u8, a: f32, b: f32| {
            if kind < 2 {
                (a as f64 - b as f64).abs() <= NEAR
            } else {
                same(a, b)
            }
        };
        let agree = piped.len() == events.len()
            && piped.iter().zip(events).all(|(r, e)| {
                kind_number(r.kind) == e.kind && r.timestamp_ns == e.time && close(e.kind, r.confidence, e.confidence)
            })
            && recent.is_some_and(|w| w.end_ns == window.scalars.end && w.frame_count as u64 == window.scalars.frames);
        if !agree {
            return self.differ(
                "events of the Rust's pipeline and ours",
                format!("{:?}", piped),
                format!("{:?}", events),
            );
        }
        self.tally.pipeline_windows += 1;
        self.tally.pipeline_events += events.len() as u64;
        Ok(())
    }

    /// How many windows met a threshold exactly, or one float beside it.
    fn count_thresholds(&mut self, window: &Window, slots: &[crate::engine::Slot]) {
        let s = &window.scalars;
        let mut pairs: Vec<(usize, f32, f32)> = vec![];
        for slot in slots {
            let w = |i: usize| float(slot.words[i]);
            match slot.kind {
                0 if slot.flag == 0 => pairs.push((0, s.presence, w(0))),
                0 => pairs.push((1, s.presence, w(1))),
                1 if slot.flag == 0 => pairs.push((2, s.motion, w(0))),
                1 => pairs.push((3, s.motion, w(1))),
                2 => pairs.push((4, s.quality, w(0))),
                _ => {
                    if let Some(d) = self.engine.distance {
                        pairs.push((5, d, w(0)));
                        pairs.push((6, d, w(2)));
                    }
                }
            }
        }
        self.engine.distance = None;
        for (i, x, t) in pairs {
            if x == t {
                self.tally.at[i] += 1;
            } else if x.next_up() == t || x.next_down() == t {
                self.tally.beside[i] += 1;
            }
        }
    }

    fn end(&mut self) -> Outcome {
        self.engine.unfixed |= self.engine.end_unfixed();
        self.same_state()?;
        if self.natural() && self.rust.as_ref().is_some_and(|r| r.far) {
            self.tally.pipelines += 1;
            let wrong = self.rust.as_ref().and_then(|r| {
                let theirs = r.pipeline.recent_windows();
                let agree = theirs.len() == self.engine.recent.len()
                    && r.pipeline.pending_frame_count() as u64 == self.engine.buffer.pending
                    && theirs.iter().zip(&self.engine.recent).all(|(w, s)| {
                        w.start_ns == s.start
                            && w.end_ns == s.end
                            && w.frame_count as u64 == s.frames
                            && same(w.motion_energy, s.motion)
                            && same(w.quality_score, s.quality)
                            && (w.presence_score as f64 - s.presence as f64).abs() <= NEAR
                    });
                (!agree).then(|| format!("{:?}", theirs))
            });
            if let Some(theirs) = wrong {
                return self.differ(
                    "recent windows of the Rust's pipeline and ours",
                    theirs,
                    format!("{:?}", self.engine.recent),
                );
            }
        }
        let mut lines = vec![];
        end_lines(&self.engine, &mut lines);
        for right in lines {
            self.expect("recent windows and end", &right, true)?;
        }
        Ok(())
    }
}

/// Two buffers with nothing pending whose settings agree.
fn empty_equal(a: &Engine, b: &Engine) -> bool {
    let key = |e: &Engine| {
        let b = &e.buffer;
        (b.session, b.source, b.max_frames, b.max_duration, b.threshold)
    };
    key(a) == key(b) && a.buffer.subcarriers == b.buffer.subcarriers
}

/// Compares the answers to a script. True: every state that the script went on from was fixed by 01.
pub fn compare(script: &Script, lines: &mut Lines, tally: &mut Tally) -> (Outcome, bool) {
    compare_with(Wrong::Nothing, script, lines, tally)
}

/// The same with a mistake in the model itself, which only the Rust can find.
pub fn compare_with(wrong: Wrong, script: &Script, lines: &mut Lines, tally: &mut Tally) -> (Outcome, bool) {
    tally.scripts += 1;
    let mut run = Run {
        engine: Engine::new(wrong),
        rust: Some(RustSide::new(&crate::script::START)),
        before: None,
        lines,
        tally,
        at: 0,
    };
    for (i, c) in script.iter().enumerate() {
        run.at = i;
        if let Err(d) = run.command(c) {
            return (Err(d), !run.engine.unfixed);
        }
    }
    run.at = script.len();
    let outcome = run.end();
    (outcome, !run.engine.unfixed)
}

/// The model's own answers to a script.
pub fn model_answers(script: &Script, wrong: Wrong) -> String {
    let mut engine = Engine::new(wrong);
    let mut lines = vec![];
    for c in script {
        answer(&mut engine, c, &mut lines);
    }
    end_lines(&engine, &mut lines);
    lines.push(String::new());
    lines.join("\n")
}
