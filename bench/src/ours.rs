//! The functions of crates/bench_loops, and the lists that they are lent.

mod linked {
    #![allow(improper_ctypes)]
    // A slice of Rattle is two words here: its place and its length. An array is its place.
    extern "C" {
        pub fn bench_root(values: *const f64, n: usize, out: *mut f64, m: usize);
        pub fn bench_narrow(values: *const f64, n: usize, out: *mut f32, m: usize);
        pub fn bench_score(values: *const f32, n: usize, threshold: f32, out: *mut f32, m: usize);
        pub fn bench_frames(
            count: u64,
            subcarriers: usize,
            pair_count: usize,
            ring: usize,
            amplitude: *const f32,
            amplitude_len: usize,
            phase: *const f32,
            phase_len: usize,
            pairs: *const f32,
            pairs_len: usize,
            amplitude_store: *mut [f32; 4096],
            phase_store: *mut [f32; 4096],
            baseline_store: *mut [f32; 256],
            mean_amplitude: *mut [f32; 256],
            phase_variance: *mut [f32; 256],
            tally: *mut [u64; 2],
        );
        pub fn bench_read(
            rounds: u64,
            input: *const u8,
            input_len: usize,
            amplitudes: *mut [u32; 256],
            phases: *mut [u32; 256],
            pairs: *mut [u32; 512],
            tally: *mut [u64; 2],
        );
        pub fn bench_write(
            count: u64,
            out: *mut u8,
            out_len: usize,
            amplitudes: *const u32,
            amplitudes_len: usize,
            phases: *const u32,
            phases_len: usize,
            pairs: *const u32,
            pairs_len: usize,
        ) -> usize;
    }
}

pub struct Stores {
    amplitude: [f32; 4096],
    phase: [f32; 4096],
    baseline: [f32; 256],
    mean: [f32; 256],
    variance: [f32; 256],
}

impl Stores {
    pub fn new() -> Box<Stores> {
        Box::new(Stores {
            amplitude: [0.0; 4096],
            phase: [0.0; 4096],
            baseline: [0.0; 256],
            mean: [0.0; 256],
            variance: [0.0; 256],
        })
    }
}

pub fn root(values: &[f64], out: &mut [f64]) {
    unsafe { linked::bench_root(values.as_ptr(), values.len(), out.as_mut_ptr(), out.len()) }
}

pub fn narrow(values: &[f64], out: &mut [f32]) {
    unsafe { linked::bench_narrow(values.as_ptr(), values.len(), out.as_mut_ptr(), out.len()) }
}

pub fn score(values: &[f32], threshold: f32, out: &mut [f32]) {
    unsafe { linked::bench_score(values.as_ptr(), values.len(), threshold, out.as_mut_ptr(), out.len()) }
}

/// Frames one behind the other in three lists.
pub struct Frames {
    pub subcarriers: usize,
    pub pair_count: usize,
    pub ring: usize,
    pub amplitude: Vec<f32>,
    pub phase: Vec<f32>,
    pub pairs: Vec<f32>,
}

/// Windows and events of a fresh pipeline given `count` frames, from frame `start` on.
pub fn frames(f: &Frames, start: usize, count: u64, s: &mut Stores) -> [u64; 2] {
    let mut tally = [0; 2];
    let amplitude = &f.amplitude[start * f.subcarriers..];
    let phase = &f.phase[start * f.subcarriers..];
    let pairs = &f.pairs[start * 2 * f.pair_count..];
    unsafe {
        linked::bench_frames(
            count,
            f.subcarriers,
            f.pair_count,
            f.ring - start,
            amplitude.as_ptr(),
            amplitude.len(),
            phase.as_ptr(),
            phase.len(),
            pairs.as_ptr(),
            pairs.len(),
            &mut s.amplitude,
            &mut s.phase,
            &mut s.baseline,
            &mut s.mean,
            &mut s.variance,
            &mut tally,
        )
    }
    tally
}

/// Where a reader puts a record's lists.
pub struct Lists {
    pub amplitudes: [u32; 256],
    pub phases: [u32; 256],
    pub pairs: [u32; 512],
}

impl Lists {
    pub fn new() -> Box<Lists> {
        Box::new(Lists {
            amplitudes: [0; 256],
            phases: [0; 256],
            pairs: [0; 512],
        })
    }
}

/// Records and subcarriers read, in `rounds` rounds over the input.
pub fn read(rounds: u64, input: &[u8], l: &mut Lists) -> [u64; 2] {
    let mut tally = [0; 2];
    unsafe {
        linked::bench_read(
            rounds,
            input.as_ptr(),
            input.len(),
            &mut l.amplitudes,
            &mut l.phases,
            &mut l.pairs,
            &mut tally,
        )
    }
    tally
}

/// The place after `count` records, a millisecond apart.
pub fn write(count: u64, out: &mut [u8], amplitudes: &[u32], phases: &[u32], pairs: &[u32]) -> usize {
    unsafe {
        linked::bench_write(
            count,
            out.as_mut_ptr(),
            out.len(),
            amplitudes.as_ptr(),
            amplitudes.len(),
            phases.as_ptr(),
            phases.len(),
            pairs.as_ptr(),
            pairs.len(),
        )
    }
}
