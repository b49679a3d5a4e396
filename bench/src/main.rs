//! Measures crates/bench_loops and the Rust in turn, in one run and on the same frames, and prints a table.
//!
//!     speed [--seed N] [--times N] [--quick] [--program PATH]
//!
//! The ratio is that of the medians, ours to the Rust's; beside it stand the quartiles of the ratios of the single turns.
//! Both sides must do the same work: their windows, events and bytes are compared, and a difference ends the run.

mod ours;
mod theirs;

use ours::{Frames, Lists, Stores};
use std::hint::black_box;
use std::process::{Command, Stdio};

/// The processor's time of this thread, and of the programs that it waited for: what others run beside it does not count.
mod clock {
    #[repr(C)]
    struct Timespec {
        seconds: i64,
        nanoseconds: i64,
    }

    /// Two times, seconds and microseconds each, then what is not read here.
    #[repr(C)]
    struct Usage {
        times: [i64; 4],
        rest: [i64; 32],
    }

    extern "C" {
        fn clock_gettime(clock: i32, time: *mut Timespec) -> i32;
        fn getrusage(who: i32, usage: *mut Usage) -> i32;
    }

    const THREAD: i32 = 3;
    const CHILDREN: i32 = -1;

    pub fn thread() -> f64 {
        let mut t = Timespec {
            seconds: 0,
            nanoseconds: 0,
        };
        assert!(unsafe { clock_gettime(THREAD, &mut t) } == 0, "speed: no clock");
        t.seconds as f64 * 1e9 + t.nanoseconds as f64
    }

    pub fn children() -> f64 {
        let mut u = Usage {
            times: [0; 4],
            rest: [0; 32],
        };
        assert!(unsafe { getrusage(CHILDREN, &mut u) } == 0, "speed: no usage");
        (u.times[0] + u.times[2]) as f64 * 1e9 + (u.times[1] + u.times[3]) as f64 * 1e3
    }
}

/// Splitmix64.
struct Rng(u64);

impl Rng {
    fn next(&mut self) -> u64 {
        self.0 = self.0.wrapping_add(0x9e37_79b9_7f4a_7c15);
        let mut z = self.0;
        z = (z ^ (z >> 30)).wrapping_mul(0xbf58_476d_1ce4_e5b9);
        z = (z ^ (z >> 27)).wrapping_mul(0x94d0_49bb_1331_11eb);
        z ^ (z >> 31)
    }

    /// From 0 to 1, 1 not met.
    fn unit(&mut self) -> f64 {
        (self.next() >> 11) as f64 / (1u64 << 53) as f64
    }
}

/// How many frames go round: too many for a processor to learn the branches of each by heart.
const RING: usize = 512;

/// A room in which somebody walks for half of the time.
fn room(rng: &mut Rng, subcarriers: usize, pair_count: usize) -> Frames {
    let mut f = Frames {
        subcarriers,
        pair_count,
        ring: RING,
        amplitude: vec![],
        phase: vec![],
        pairs: vec![],
    };
    for j in 0..RING {
        let noise = if j % 128 < 64 { 0.1 } else { 4.0 };
        let mut near = |mean: f64| (mean + noise * (rng.unit() - 0.5)) as f32;
        f.amplitude.extend((0..subcarriers).map(|k| near(10.0 + (k % 7) as f64)));
        f.phase.extend((0..subcarriers).map(|_| near(0.0)));
        f.pairs.extend((0..2 * pair_count).map(|_| near(7.0)));
    }
    f
}

/// The times of one row, ours and the Rust's, in nanoseconds a unit.
struct Row {
    name: String,
    ours: Vec<f64>,
    theirs: Vec<f64>,
    /// Bytes in a unit, where a rate is of interest.
    bytes: Option<f64>,
}

/// The value that `part` of the list's values lie below.
fn quantile(list: &[f64], part: f64) -> f64 {
    let mut l = list.to_vec();
    l.sort_by(f64::total_cmp);
    l[((l.len() - 1) as f64 * part).round() as usize]
}

impl Row {
    fn new(name: impl Into<String>) -> Row {
        Row {
            name: name.into(),
            ours: vec![],
            theirs: vec![],
            bytes: None,
        }
    }

    fn push(&mut self, ours: f64, theirs: f64) {
        self.ours.push(ours);
        self.theirs.push(theirs);
    }

    fn print(&self) {
        let (o, t) = (quantile(&self.ours, 0.5), quantile(&self.theirs, 0.5));
        let ratios: Vec<f64> = self.ours.iter().zip(&self.theirs).map(|(a, b)| a / b).collect();
        let (low, high) = (quantile(&ratios, 0.25), quantile(&ratios, 0.75));
        let rate = match self.bytes {
            Some(b) => format!("{:.0} and {:.0} MB/s", b * 1000.0 / o, b * 1000.0 / t),
            None => String::new(),
        };
        println!(
            "| {:32} | {:>9.1} | {:>9.1} | {:>5.2} | {:>5.2} to {:>5.2} | {} |",
            self.name,
            o,
            t,
            o / t,
            low,
            high,
            rate
        );
    }
}

/// Nanoseconds of one call.
fn time<T>(call: impl FnOnce() -> T) -> (f64, T) {
    let start = clock::thread();
    let r = black_box(call());
    (clock::thread() - start, r)
}

/// Both calls, the one or the other first, and their times.
fn both<T>(turn: usize, ours: impl FnOnce() -> T, theirs: impl FnOnce() -> T) -> ((f64, T), (f64, T)) {
    if turn % 2 == 0 {
        let o = time(ours);
        (o, time(theirs))
    } else {
        let t = time(theirs);
        (time(ours), t)
    }
}

/// Both calls, which must return the same; their times.
fn same<T: PartialEq + std::fmt::Debug>(
    what: &str,
    turn: usize,
    ours: impl FnOnce() -> T,
    theirs: impl FnOnce() -> T,
) -> (f64, f64) {
    let ((o, a), (t, b)) = both(turn, ours, theirs);
    if a != b {
        eprintln!("speed: {what}: ours gives {a:?}, the Rust {b:?}");
        std::process::exit(1);
    }
    (o, t)
}

struct Run {
    times: usize,
    quick: u64,
    rng: Rng,
}

impl Run {
    /// A frame in a stream, a frame that closes nothing, and a close.
    /// A frame that closes nothing is what 15 frames take more than one, in fresh pipelines; a close is what the stream takes more than such frames.
    fn frames(&mut self, subcarriers: usize, pair_count: usize) {
        let f = room(&mut self.rng, subcarriers, pair_count);
        let mut ring = theirs::ring(&f);
        let mut s = Stores::new();
        let what = format!("{subcarriers}/{pair_count}");
        let count = 16 * 1024 / self.quick;
        let mut stream = Row::new(format!("frame {what}"));
        let mut kept = Row::new(format!("frame {what}, closing nothing"));
        let mut close = Row::new(format!("close {what}, of 16 frames"));
        for turn in 0..self.times {
            let mut go = |starts: &[usize], count: u64| {
                let sum = |list: Vec<[u64; 2]>| list.iter().fold([0, 0], |t, x| [t[0] + x[0], t[1] + x[1]]);
                let (o, t) = same(
                    &what,
                    turn,
                    || sum(starts.iter().map(|j| ours::frames(&f, *j, count, &mut s)).collect()),
                    || sum(starts.iter().map(|j| theirs::frames(&mut ring, *j, count)).collect()),
                );
                (o / starts.len() as f64, t / starts.len() as f64)
            };
            let starts: Vec<usize> = (0..1024 / self.quick as usize).map(|i| 15 * i % (RING - 15)).collect();
            let all = go(&[0], count);
            let one = go(&starts, 1);
            let most = go(&starts, 15);
            let per = |x: f64| x / count as f64;
            let k = ((most.0 - one.0) / 14.0, (most.1 - one.1) / 14.0);
            stream.push(per(all.0), per(all.1));
            kept.push(k.0, k.1);
            close.push(16.0 * (per(all.0) - k.0), 16.0 * (per(all.1) - k.1));
        }
        stream.print();
        kept.print();
        close.print();
    }

    fn helpers(&mut self) {
        const N: usize = 4096;
        let values: Vec<f64> = (0..N).map(|_| 1.0 + 1e4 * self.rng.unit()).collect();
        let motions: Vec<f32> = (0..N).map(|_| self.rng.unit() as f32).collect();
        let (mut wide, mut wide_too) = (vec![0.0f64; N], vec![0.0f64; N]);
        let (mut out, mut out_too) = (vec![0.0f32; N], vec![0.0f32; N]);
        let mut rows = [Row::new("root"), Row::new("narrowing"), Row::new("score")];
        for turn in 0..self.times {
            let n = N as f64;
            let ((o, _), (t, _)) = both(
                turn,
                || ours::root(&values, black_box(&mut wide)),
                || theirs::root(&values, black_box(&mut wide_too)),
            );
            rows[0].push(o / n, t / n);
            let ((o, _), (t, _)) = both(
                turn,
                || ours::narrow(&values, black_box(&mut out)),
                || theirs::narrow(&values, black_box(&mut out_too)),
            );
            rows[1].push(o / n, t / n);
            assert!(wide == wide_too && out == out_too, "speed: a root or a narrowing differs");
            let ((o, _), (t, _)) = both(
                turn,
                || ours::score(&motions, 0.02, black_box(&mut out)),
                || theirs::score(&motions, 0.02, black_box(&mut out_too)),
            );
            rows[2].push(o / n, t / n);
            let far = |(a, b): (&f32, &f32)| (a - b).abs() > 1.0 / 65536.0;
            assert!(
                !out.iter().zip(&out_too).any(far),
                "speed: a score is further than 2^-16 away"
            );
        }
        rows.iter().for_each(Row::print);
    }

    /// A recording of `count` frames.
    fn bytes(&mut self, subcarriers: usize, pair_count: usize, count: usize) -> Vec<u8> {
        let f = room(&mut self.rng, subcarriers, pair_count);
        let row =
            |list: &[f32], j: usize, n: usize| -> Vec<u32> { list[j * n..(j + 1) * n].iter().map(|x| x.to_bits()).collect() };
        let mut out = vec![0; count * (32 + 8 * subcarriers + 8 * pair_count)];
        let mut at = 0;
        for i in 0..count {
            let j = i % RING;
            let (a, p, q) = (
                row(&f.amplitude, j, subcarriers),
                row(&f.phase, j, subcarriers),
                row(&f.pairs, j, 2 * pair_count),
            );
            theirs::write_one(&mut out, &mut at, 1_000_000 * i as u64, 0x3f40_0000, &a, &p, &q).expect("room for a record");
        }
        out.truncate(at);
        out
    }

    fn records(&mut self, subcarriers: usize, pair_count: usize) {
        let count = 1024 / self.quick as usize;
        let input = self.bytes(subcarriers, pair_count, count);
        let size = input.len() as f64 / count as f64;
        let mut l = Lists::new();
        let mut l_too = Lists::new();
        let mut read = Row::new(format!("record {subcarriers}/{pair_count} read"));
        let mut write = Row::new(format!("record {subcarriers}/{pair_count} written"));
        read.bytes = Some(size);
        write.bytes = Some(size);
        let words = |n: usize, rng: &mut Rng| -> Vec<u32> { (0..n).map(|_| rng.next() as u32).collect() };
        let (a, p, q) = (
            words(subcarriers, &mut self.rng),
            words(subcarriers, &mut self.rng),
            words(2 * pair_count, &mut self.rng),
        );
        let (mut out, mut out_too) = (vec![0; input.len() + 4096], vec![0; input.len() + 4096]);
        for turn in 0..self.times {
            let (o, t) = same(
                "reading",
                turn,
                || ours::read(4, &input, &mut l),
                || theirs::read(4, &input, &mut l_too),
            );
            read.push(o / (4 * count) as f64, t / (4 * count) as f64);
            assert!(
                l.amplitudes == l_too.amplitudes && l.phases == l_too.phases && l.pairs == l_too.pairs,
                "speed: what is read differs"
            );
            let n = count as u64;
            let (o, t) = same(
                "writing",
                turn,
                || ours::write(n, &mut out, &a, &p, &q),
                || theirs::write(n, &mut out_too, &a, &p, &q),
            );
            write.push(o / n as f64, t / n as f64);
            assert!(out == out_too, "speed: what is written differs");
        }
        read.print();
        write.print();
    }

    /// The program on a file, and the same program in Rust: this one, called with `--listing`.
    fn program(&mut self, path: &str, subcarriers: usize, pair_count: usize) -> std::io::Result<()> {
        let count = 16 * 4096 / self.quick as usize;
        let input = self.bytes(subcarriers, pair_count, count);
        let file = std::env::temp_dir().join(format!("speed-{}.rec", std::process::id()));
        std::fs::write(&file, &input)?;
        let me = std::env::current_exe()?;
        let run = |mut c: Command| -> (f64, String) {
            let start = clock::children();
            let out = c.arg(&file).stderr(Stdio::inherit()).output().expect("the program runs");
            (
                clock::children() - start,
                String::from_utf8_lossy(&out.stdout).lines().last().unwrap_or("").to_string(),
            )
        };
        let mut row = Row::new(format!("program {subcarriers}/{pair_count}, a frame"));
        row.bytes = Some(input.len() as f64 / count as f64);
        for turn in 0..self.times.min(11) {
            let ours = || run(Command::new(path));
            let theirs = || {
                let mut c = Command::new(&me);
                c.arg("--listing");
                run(c)
            };
            let ((_, (o, a)), (_, (t, b))) = both(turn, ours, theirs);
            if a != b {
                eprintln!("speed: the program ends with {a:?}, the Rust with {b:?}");
                std::process::exit(1);
            }
            row.push(o / count as f64, t / count as f64);
        }
        std::fs::remove_file(&file)?;
        row.print();
        Ok(())
    }
}

fn main() -> std::io::Result<()> {
    let mut seed = 7;
    let mut times = 31;
    let mut quick = 1;
    let mut program = None;
    let mut words = std::env::args().skip(1);
    while let Some(w) = words.next() {
        let mut value = || words.next().unwrap_or_default();
        match w.as_str() {
            "--seed" => seed = value().parse().expect("a number"),
            "--times" => times = value().parse::<usize>().expect("a number").max(1),
            "--quick" => (quick, times) = (8, 5),
            "--program" => program = Some(value()),
            "--listing" => return theirs::listing(&value()),
            _ => {
                eprintln!("usage: speed [--seed N] [--times N] [--quick] [--program PATH]");
                std::process::exit(2);
            }
        }
    }
    let mut run = Run {
        times,
        quick,
        rng: Rng(seed),
    };
    println!("seed {seed}, median of {times}, {}", std::env::consts::ARCH);
    println!(
        "| {:32} | {:>9} | {:>9} | {:>5} | {:14} | rates |",
        "what", "ours, ns", "Rust, ns", "ratio", "middle half"
    );
    println!("|---|---|---|---|---|---|");
    for (n, m) in [(16, 0), (64, 0), (64, 64), (256, 256)] {
        run.frames(n, m);
    }
    run.helpers();
    run.records(64, 64);
    if let Some(path) = program {
        run.program(&path, 64, 64)?;
    }
    Ok(())
}
