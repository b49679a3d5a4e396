//! The presence score by 01's table rule.

use std::sync::OnceLock;

/// Entry k is 2^24/(1 + e^-(k/64 - 16)) to nearest. No entry is nearer than 1e-6 to a half (a test says so), so f64 is exact enough.
fn entry_exact(k: usize) -> f64 {
    16_777_216.0 / (1.0 + (16.0 - k as f64 / 64.0).exp())
}

pub fn table() -> &'static [u32; 2049] {
    static TABLE: OnceLock<[u32; 2049]> = OnceLock::new();
    TABLE.get_or_init(|| std::array::from_fn(|k| entry_exact(k).round() as u32))
}

/// Units/2^24. `truncate` is a mistake on purpose: q toward zero.
pub fn score(motion: f32, threshold: f32, truncate: bool) -> f32 {
    let z = (motion - threshold) * 20.0;
    if z < -16.0 {
        return 0.0;
    }
    if z > 16.0 {
        return 1.0;
    }
    let scaled = z as f64 * 65_536.0;
    let q = if truncate { scaled.trunc() } else { scaled.floor() } as i64;
    let u = (q + 1_048_576) as usize;
    let (k, r) = (u / 1024, (u % 1024) as u64);
    let t = table();
    let mut units = t[k] as u64;
    if r > 0 {
        units += (t[k + 1] - t[k]) as u64 * r / 1024;
    }
    units as f32 / 16_777_216.0
}

#[cfg(test)]
mod tests {
    use super::*;

    #[test]
    fn no_entry_is_near_a_half() {
        for k in 0..2049 {
            let x = entry_exact(k);
            assert!((x - x.floor() - 0.5).abs() > 1e-6, "entry {k} is {x}");
        }
    }

    #[test]
    fn entries_mirror_and_never_fall() {
        let t = table();
        for k in 0..2049 {
            assert_eq!(t[k] + t[2048 - k], 1 << 24);
            if k > 0 {
                assert!(t[k - 1] <= t[k] && t[k] - t[k - 1] <= 65_536);
            }
        }
    }

    #[test]
    fn middle_and_ends() {
        assert_eq!(score(0.5, 0.5, false), 0.5);
        assert_eq!(score(0.0, 0.85, false), 0.0);
        assert_eq!(score(100.0, 0.0, false), 1.0);
    }
}
