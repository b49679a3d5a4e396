//! Differential runs: makes scripts from a seed, lets a program answer them, and holds its answers against the Rust and the model of document 01.

use driver::compare::{compare, model_answers, Difference, Lines, Tally, NEAR};
use driver::engine::Wrong;
use driver::generate::{enumerated, random, Tagged};
use driver::rng::Rng;
use driver::script::{encode, text, Command, Script};
use std::io::{Read, Write};
use std::process::{Command as Process, Stdio};

const USAGE: &str = "differential [options] PROGRAM [ARGUMENTS]
  --seed N      where the scripts come from (default 20261106)
  --scripts N   at least so many scripts (default 2400)
  --frames N    at least so many frames (default 220000)
  --long        at least 4,000,000 frames
  --keep FILE   where the smallest script that shows a difference is written
  --fixed DIR   instead of a run: a sample of at least 300 scripts as DIR/stdin, PROGRAM's answers, compared, as DIR/stdout";

struct Options {
    seed: u64,
    scripts: u64,
    frames: u64,
    keep: Option<String>,
    fixed: Option<String>,
    program: Vec<String>,
}

fn usage() -> ! {
    eprintln!("{}", USAGE);
    std::process::exit(2)
}

fn options() -> Options {
    let mut o = Options {
        seed: 20_261_106,
        scripts: 2400,
        frames: 220_000,
        keep: None,
        fixed: None,
        program: vec![],
    };
    let mut args = std::env::args().skip(1);
    while let Some(a) = args.next() {
        let mut number = || args.next().and_then(|n| n.parse().ok()).unwrap_or_else(|| usage());
        match a.as_str() {
            "--seed" => o.seed = number(),
            "--scripts" => o.scripts = number(),
            "--frames" => o.frames = number(),
            "--long" => o.frames = 4_000_000,
            "--keep" => o.keep = Some(args.next().unwrap_or_else(|| usage())),
            "--fixed" => o.fixed = Some(args.next().unwrap_or_else(|| usage())),
            _ if a.starts_with("--") => usage(),
            _ => {
                o.program.push(a);
                o.program.extend(args.by_ref());
            }
        }
    }
    if o.program.is_empty() {
        usage();
    }
    o
}

/// What the program writes when it reads these bytes.
fn answers(program: &[String], bytes: Vec<u8>) -> String {
    let mut child = Process::new(&program[0])
        .args(&program[1..])
        .stdin(Stdio::piped())
        .stdout(Stdio::piped())
        .spawn()
        .unwrap_or_else(|e| {
            eprintln!("{}: {}", program[0], e);
            std::process::exit(2)
        });
    let mut stdin = child.stdin.take().expect("piped");
    let writer = std::thread::spawn(move || {
        // A program that stops early is seen by its answers.
        let _ = stdin.write_all(&bytes);
    });
    let mut out = Vec::new();
    let _ = child.stdout.take().expect("piped").read_to_end(&mut out);
    let _ = writer.join();
    let _ = child.wait();
    String::from_utf8_lossy(&out).into_owned()
}

/// The answers to these scripts, compared; the first difference and its script.
fn run(program: &[String], scripts: &[Tagged], tally: &mut Tally) -> Result<String, (usize, Difference)> {
    let mut bytes = vec![];
    for s in scripts {
        encode(&s.script, &mut bytes);
    }
    let text = answers(program, bytes);
    let mut lines = Lines::new(&text);
    for (i, s) in scripts.iter().enumerate() {
        let (outcome, fixed) = compare(&s.script, &mut lines, tally);
        if let Err(d) = outcome {
            return Err((i, d));
        }
        assert!(
            fixed,
            "script {} of '{}' goes on from contents that are not fixed",
            i, s.family
        );
    }
    if let Some(line) = lines.rest() {
        let d = Difference {
            command: 0,
            what: "more answers than scripts".to_string(),
            right: String::new(),
            given: line.to_string(),
        };
        return Err((scripts.len() - 1, d));
    }
    Ok(text)
}

/// Scripts one after the other; each ends at a `None`.
type Flat = Vec<Option<Command>>;

fn flat(scripts: &[Tagged]) -> Flat {
    let mut out = vec![];
    for s in scripts {
        out.extend(s.script.iter().cloned().map(Some));
        out.push(None);
    }
    out
}

fn apart(flat: &Flat) -> Vec<Script> {
    let mut scripts: Vec<Script> = vec![];
    let mut script = vec![];
    for c in flat {
        match c {
            Some(c) => script.push(c.clone()),
            None => scripts.push(std::mem::take(&mut script)),
        }
    }
    scripts.push(script);
    scripts
}

/// The difference that these scripts show, and how far they are needed for it.
fn shows(program: &[String], flat: &Flat) -> Option<(usize, Difference)> {
    let scripts = apart(flat);
    let mut bytes = vec![];
    scripts.iter().for_each(|s| encode(s, &mut bytes));
    let text = answers(program, bytes);
    let mut lines = Lines::new(&text);
    let mut before = 0;
    for s in &scripts {
        match compare(s, &mut lines, &mut Tally::new()) {
            (Err(d), true) => return Some((before + d.command + 1, d)),
            (Ok(()), true) => before += s.len() + 1,
            _ => return None,
        }
    }
    None
}

/// The smallest scripts that still show a difference: commands are dropped while they do, for a minute at most.
fn shrink(program: &[String], flat: &Flat) -> Option<(Flat, Difference)> {
    let started = std::time::Instant::now();
    let (needed, mut found) = shows(program, flat)?;
    let mut best = flat[..needed.min(flat.len())].to_vec();
    let mut size = best.len().div_ceil(2).max(1);
    loop {
        let mut dropped = false;
        let mut at = 0;
        while at < best.len() && started.elapsed().as_secs() < 60 {
            let mut less = best.clone();
            less.drain(at..(at + size).min(best.len()));
            match shows(program, &less) {
                Some((needed, d)) => {
                    less.truncate(needed);
                    best = less;
                    found = d;
                    dropped = true;
                }
                None => at += size,
            }
        }
        if (size == 1 && !dropped) || started.elapsed().as_secs() >= 60 {
            return Some((best, found));
        }
        if !dropped || size > best.len() {
            size = (size / 2).max(1);
        }
    }
}

fn report(o: &Options, scripts: &[Tagged], index: usize, d: &Difference) {
    println!("DIFFERENCE in '{}' (seed {}): {}", scripts[index].family, o.seed, d.what);
    let alone = shrink(&o.program, &flat(&scripts[index..=index]));
    let smallest = alone.or_else(|| {
        println!("it shows only after scripts before it");
        shrink(&o.program, &flat(&scripts[..=index]))
    });
    let (smallest, d) = smallest.unwrap_or_else(|| {
        println!("it does not show a second time");
        (flat(&scripts[index..=index]), d.clone())
    });
    println!("smallest script, {} commands: {}", smallest.len(), d.what);
    for c in &smallest {
        println!("  {}", c.as_ref().map_or("end".to_string(), text));
    }
    println!("right: {}", d.right);
    println!("given: {}", d.given);
    if let Some(path) = &o.keep {
        let mut bytes = vec![];
        apart(&smallest).iter().for_each(|s| encode(s, &mut bytes));
        match std::fs::write(path, bytes) {
            Ok(()) => println!("written to {}", path),
            Err(e) => println!("{}: {}", path, e),
        }
    }
}

fn frames_in(script: &Script) -> u64 {
    script.iter().filter(|c| matches!(c, Command::Frame(_))).count() as u64
}

fn print_tally(t: &Tally, families: &[(&'static str, u64)]) {
    let kinds = [
        "presence-started",
        "presence-ended",
        "motion-detected",
        "motion-settled",
        "baseline-changed",
        "quality-dropped",
        "anomaly",
        "calibration",
    ];
    let list = |names: &[&str], counts: &[u64]| -> String {
        names
            .iter()
            .zip(counts)
            .map(|(n, c)| format!("{} {}", n, c))
            .collect::<Vec<_>>()
            .join(", ")
    };
    println!(
        "scripts {}: {}",
        t.scripts,
        families
            .iter()
            .map(|f| format!("{} {}", f.0, f.1))
            .collect::<Vec<_>>()
            .join(", ")
    );
    println!("commands {}, frames {}, taken {}", t.commands, t.frames, t.taken);
    println!(
        "windows {} equal to the Rust's; {} more, after forged states, to the model's",
        t.windows, t.windows_by_model
    );
    println!(
        "events {} equal to the Rust's ({}); {} more to the model's",
        t.events.iter().sum::<u64>(),
        list(&kinds, &t.events),
        t.events_by_model
    );
    println!(
        "whole pipelines, away from the presence thresholds: {} windows, {} events, {} scripts to their end",
        t.pipeline_windows, t.pipeline_events, t.pipelines
    );
    for (name, counts) in ["making", "adding", "frames", "flushes"].iter().zip(&t.refusals) {
        let shown: Vec<String> = (0..16)
            .filter(|r| counts[*r] > 0)
            .map(|r| format!("{}: {}", r, counts[r]))
            .collect();
        println!("replies to {}: {}", name, shown.join(", "));
    }
    let thresholds = ["on", "off", "motion on", "motion off", "drop", "drift", "anomaly"];
    println!("windows exactly at a threshold in force: {}", list(&thresholds, &t.at));
    println!("windows one float beside it: {}", list(&thresholds, &t.beside));
    println!(
        "stores and state looked at {} times, {} times against the Rust's own; constructors {}",
        t.looks, t.states, t.constructors
    );
    println!(
        "largest presence-score difference {:e} ({:.3} of 2^-16)",
        t.largest,
        t.largest / NEAR
    );
}

fn counted(families: &mut Vec<(&'static str, u64)>, name: &'static str) {
    match families.iter_mut().find(|f| f.0 == name) {
        Some(f) => f.1 += 1,
        None => families.push((name, 1)),
    }
}

fn differential(o: &Options) -> bool {
    println!("seed {}", o.seed);
    let mut tally = Tally::new();
    let mut families = vec![];
    let mut waiting = enumerated(o.seed).into_iter();
    let mut rng = Rng::new(o.seed);
    let (mut made, mut frames, mut i) = (0, 0, 0);
    while made < o.scripts || frames < o.frames || waiting.len() > 0 {
        let (mut batch, mut batch_frames) = (vec![], 0);
        while batch_frames < 20_000 && (made < o.scripts || frames < o.frames || waiting.len() > 0) {
            let next = waiting.next().unwrap_or_else(|| {
                i += 1;
                random(&mut rng, i, 480)
            });
            let n = frames_in(&next.script);
            made += 1;
            frames += n;
            batch_frames += n;
            counted(&mut families, next.family);
            batch.push(next);
        }
        if let Err((index, d)) = run(&o.program, &batch, &mut tally) {
            report(o, &batch, index, &d);
            return false;
        }
    }
    print_tally(&tally, &families);
    println!("0 differences");
    true
}

/// A sample of all families, round and round, while it stays below 1.9 MB.
fn sample(seed: u64) -> Vec<Tagged> {
    let mut all = enumerated(seed);
    let mut rng = Rng::new(seed ^ 0xf1bed);
    for i in 0..400 {
        all.push(random(&mut rng, i, 40));
    }
    for i in (1..all.len()).rev() {
        all.swap(i, rng.below(i as u64 + 1) as usize);
    }
    let mut families: Vec<(&'static str, Vec<Tagged>)> = vec![];
    for t in all {
        match families.iter_mut().find(|f| f.0 == t.family) {
            Some(f) => f.1.push(t),
            None => families.push((t.family, vec![t])),
        }
    }
    families.sort_by_key(|f| f.0);
    let (mut taken, mut size) = (vec![], 0);
    while families.iter().any(|f| !f.1.is_empty()) {
        for f in families.iter_mut() {
            if let Some(t) = f.1.pop() {
                let mut bytes = vec![];
                encode(&t.script, &mut bytes);
                let more = bytes.len() + model_answers(&t.script, Wrong::Nothing).len();
                let so_far = taken.iter().filter(|x: &&Tagged| x.family == t.family).count();
                // Long scripts give way to those that show one limit each.
                let most = if more > 12_000 {
                    3
                } else if more > 5_000 {
                    12
                } else {
                    usize::MAX
                };
                if size + more < 1_900_000 && so_far < most {
                    size += more;
                    taken.push(t);
                }
            }
        }
    }
    taken
}

fn fixed(o: &Options, dir: &str) -> bool {
    println!("seed {}", o.seed);
    let scripts = sample(o.seed);
    assert!(scripts.len() >= 300);
    let mut tally = Tally::new();
    let mut families = vec![];
    scripts.iter().for_each(|s| counted(&mut families, s.family));
    let text = match run(&o.program, &scripts, &mut tally) {
        Ok(text) => text,
        Err((index, d)) => {
            report(o, &scripts, index, &d);
            return false;
        }
    };
    let mut bytes = vec![];
    for s in &scripts {
        encode(&s.script, &mut bytes);
    }
    print_tally(&tally, &families);
    println!("stdin {} bytes, stdout {} bytes", bytes.len(), text.len());
    for (name, content) in [("stdin", &bytes[..]), ("stdout", text.as_bytes())] {
        let path = std::path::Path::new(dir).join(name);
        if let Err(e) = std::fs::write(&path, content) {
            eprintln!("{}: {}", path.display(), e);
            std::process::exit(2);
        }
    }
    println!("0 differences");
    true
}

fn main() {
    let o = options();
    // The Rust's constructors refuse by a panic, which is caught.
    std::panic::set_hook(Box::new(|info| {
        let text = info.to_string();
        if !text.contains("rvcsi-events/src")
            || !(text.contains("Config") || text.contains("assertion failed: self.") || text.contains("max_frames"))
        {
            eprintln!("{}", text);
        }
    }));
    let good = match &o.fixed {
        Some(dir) => fixed(&o, dir),
        None => differential(&o),
    };
    std::process::exit(if good { 0 } else { 1 });
}
