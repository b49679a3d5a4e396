//! Scripts: commands, their bytes (FORMAT.md) and a text that people can read.

/// The places of each store.
pub const PLACES: [usize; 5] = [4104, 4104, 264, 264, 264];
/// The places that a call must be lent.
pub const NEEDED: [usize; 5] = [4096, 4096, 256, 256, 256];

#[derive(Clone, Debug, PartialEq)]
pub struct New {
    pub session: u64,
    pub source: u64,
    pub max_frames: u64,
    pub max_duration: u64,
    pub threshold: u32,
}

/// The pipeline at a script's start.
pub const START: New = New {
    session: 0,
    source: 0,
    max_frames: 16,
    max_duration: 1_000_000_000,
    threshold: 0x3ca3_d70a,
};

#[derive(Clone, Debug, PartialEq)]
pub struct Frame {
    pub session: u64,
    pub source: u64,
    pub time: u64,
    pub flag: u8,
    pub subcarriers: u32,
    pub pairs: u32,
    pub quality: u32,
    pub amplitude: Vec<u32>,
    pub phase: Vec<u32>,
    /// i, q, i, q, ..
    pub iq: Vec<u32>,
}

#[derive(Clone, Debug, PartialEq)]
pub enum Command {
    New(New),
    Add { kind: u8, words: [u32; 4] },
    Lend([u32; 5]),
    Frame(Frame),
    Flush,
    Forge { code: u8, index: u8, value: u64 },
    Look,
}

/// The commands of a script, without its end.
pub type Script = Vec<Command>;

fn put4(out: &mut Vec<u8>, x: u32) {
    out.extend_from_slice(&x.to_le_bytes());
}

fn put8(out: &mut Vec<u8>, x: u64) {
    out.extend_from_slice(&x.to_le_bytes());
}

fn encode_command(c: &Command, out: &mut Vec<u8>) {
    match c {
        Command::New(n) => {
            out.push(1);
            put8(out, n.session);
            put8(out, n.source);
            put8(out, n.max_frames);
            put8(out, n.max_duration);
            put4(out, n.threshold);
        }
        Command::Add { kind, words } => {
            out.push(2);
            out.push(*kind);
            for w in words {
                put4(out, *w);
            }
        }
        Command::Lend(lengths) => {
            out.push(3);
            for n in lengths {
                put4(out, *n);
            }
        }
        Command::Frame(f) => {
            out.push(4);
            put8(out, f.session);
            put8(out, f.source);
            put8(out, f.time);
            out.push(f.flag);
            put4(out, f.subcarriers);
            put4(out, f.pairs);
            put4(out, f.quality);
            for list in [&f.amplitude, &f.phase, &f.iq] {
                out.extend_from_slice(&(list.len() as u16).to_le_bytes());
            }
            for list in [&f.amplitude, &f.phase, &f.iq] {
                for x in list {
                    put4(out, *x);
                }
            }
        }
        Command::Flush => out.push(5),
        Command::Forge { code, index, value } => {
            out.push(6);
            out.push(*code);
            out.push(*index);
            put8(out, *value);
        }
        Command::Look => out.push(7),
    }
}

/// The bytes of a script, its end included.
pub fn encode(script: &[Command], out: &mut Vec<u8>) {
    for c in script {
        encode_command(c, out);
    }
    out.push(0);
}

struct Bytes<'a> {
    bytes: &'a [u8],
    at: usize,
}

impl Bytes<'_> {
    fn take<const N: usize>(&mut self) -> Option<[u8; N]> {
        let part = self.bytes.get(self.at..self.at + N)?;
        self.at += N;
        part.try_into().ok()
    }

    fn one(&mut self) -> Option<u8> {
        Some(self.take::<1>()?[0])
    }

    fn two(&mut self) -> Option<u16> {
        Some(u16::from_le_bytes(self.take()?))
    }

    fn four(&mut self) -> Option<u32> {
        Some(u32::from_le_bytes(self.take()?))
    }

    fn eight(&mut self) -> Option<u64> {
        Some(u64::from_le_bytes(self.take()?))
    }

    fn words(&mut self, n: u16) -> Option<Vec<u32>> {
        (0..n).map(|_| self.four()).collect()
    }

    /// A command, or nothing at a script's end.
    fn command(&mut self) -> Option<Option<Command>> {
        Some(Some(match self.one()? {
            0 => return Some(None),
            1 => Command::New(New {
                session: self.eight()?,
                source: self.eight()?,
                max_frames: self.eight()?,
                max_duration: self.eight()?,
                threshold: self.four()?,
            }),
            2 => Command::Add {
                kind: self.one()?,
                words: [self.four()?, self.four()?, self.four()?, self.four()?],
            },
            3 => Command::Lend([self.four()?, self.four()?, self.four()?, self.four()?, self.four()?]),
            4 => {
                let (session, source, time) = (self.eight()?, self.eight()?, self.eight()?);
                let flag = self.one()?;
                let (subcarriers, pairs, quality) = (self.four()?, self.four()?, self.four()?);
                let (a, p, q) = (self.two()?, self.two()?, self.two()?);
                Command::Frame(Frame {
                    session,
                    source,
                    time,
                    flag,
                    subcarriers,
                    pairs,
                    quality,
                    amplitude: self.words(a)?,
                    phase: self.words(p)?,
                    iq: self.words(q)?,
                })
            }
            5 => Command::Flush,
            6 => Command::Forge {
                code: self.one()?,
                index: self.one()?,
                value: self.eight()?,
            },
            7 => Command::Look,
            _ => return None,
        }))
    }
}

/// The scripts in these bytes, up to the first fault.
pub fn decode(bytes: &[u8]) -> Vec<Script> {
    let mut input = Bytes { bytes, at: 0 };
    let mut scripts = Vec::new();
    let mut script = Vec::new();
    while let Some(command) = input.command() {
        match command {
            Some(c) => script.push(c),
            None => scripts.push(std::mem::take(&mut script)),
        }
    }
    scripts
}

fn list(name: &str, values: &[u32]) -> String {
    let shown: Vec<String> = values
        .iter()
        .map(|b| format!("{:08x}({:?})", b, f32::from_bits(*b)))
        .collect();
    format!(" {}=[{}]", name, shown.join(" "))
}

/// A command as a line of text.
pub fn text(c: &Command) -> String {
    match c {
        Command::New(n) => format!(
            "new session={} source={} max_frames={} max_duration={} threshold={:08x}({:?})",
            n.session,
            n.source,
            n.max_frames,
            n.max_duration,
            n.threshold,
            f32::from_bits(n.threshold)
        ),
        Command::Add { kind, words } => {
            let name = ["presence", "motion", "quality", "drift"]
                .get(*kind as usize)
                .unwrap_or(&"unknown");
            let float = match kind {
                0 | 1 => [true, true, false, false],
                2 => [true, false, false, false],
                _ => [true, false, true, true],
            };
            let shown: Vec<String> = (0..4)
                .map(|i| {
                    if float[i] {
                        format!("{:08x}({:?})", words[i], f32::from_bits(words[i]))
                    } else {
                        words[i].to_string()
                    }
                })
                .collect();
            format!("add {} {}", name, shown.join(" "))
        }
        Command::Lend(n) => format!("lend {:?}", n),
        Command::Frame(f) => format!(
            "frame session={} source={} time={} flag={} subcarriers={} pairs={} quality={:08x}({:?}){}{}{}",
            f.session,
            f.source,
            f.time,
            f.flag,
            f.subcarriers,
            f.pairs,
            f.quality,
            f32::from_bits(f.quality),
            list("amplitude", &f.amplitude),
            list("phase", &f.phase),
            list("iq", &f.iq)
        ),
        Command::Flush => "flush".to_string(),
        Command::Forge { code, index, value } => format!("forge code={} index={} value={}", code, index, value),
        Command::Look => "look".to_string(),
    }
}
