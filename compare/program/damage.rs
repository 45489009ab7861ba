//! Damage to what a question or a plan is handed.

use crate::doors::Handed;
use crate::inputs;
use crate::rng::Rng;

/// Damage to what a question is handed: entries of (kind, where, high half, low half of a number).
pub fn damage_of(rng: &mut Rng, mesh: &[f64], h: &Handed) -> Vec<u32> {
    let mut out = vec![];
    for _ in 0..1 + rng.below(2) {
        let n = mesh.len() as u64 / 9;
        let word = |rng: &mut Rng, usual: u64| match rng.below(4) {
            0 => rng.below(usual + 2),
            1 => rng.pick(&[0, 1, usual, usual + 1, 65_536, 65_537, u32::MAX as u64]),
            2 => rng.bits() as u32 as u64,
            _ => usual.saturating_sub(1),
        };
        let kind = rng.below(11);
        let (at, value) = match kind {
            0 => {
                let at = rng.below(6);
                let old = h.measures[at as usize];
                let new = match rng.below(3) {
                    0 => inputs::neighbour(rng, old),
                    1 => rng.pick(&[1e-6, 9.999e-7, 2e6, 2_000_000.000_000_000_2, 2e-6, 2.000_000_1e-6, 0., -0., 1e6, -1e6]),
                    _ => inputs::bad(rng, old),
                };
                (at, new.to_bits())
            }
            1 => {
                let at = rng.below(3);
                (at, word(rng, h.sizes[at as usize] as u64))
            }
            2 => (rng.below(h.starts.len() as u64), word(rng, h.members.len() as u64)),
            3 => (rng.below(h.members.len().max(1) as u64), word(rng, n)),
            4 => (0, rng.below(h.starts.len() as u64 + 3)),
            5 => (0, rng.below(h.members.len() as u64 + 3)),
            6 => (0, rng.pick(&[0, 1, n - 1, n + 1])),
            7 => {
                let at = rng.below(mesh.len() as u64);
                (at, inputs::bad(rng, mesh[at as usize]).to_bits())
            }
            8 => (0, mesh.len() as u64 - 1 - rng.below(9)),
            9 => (0, rng.pick(&[0, 5 * n - 1, 5 * n + 1, 5 * n + 5, 5 * n - 5])),
            _ => {
                let at = rng.below(h.boxes.len() as u64);
                let old = h.boxes[at as usize];
                let new = match rng.below(3) {
                    0 => inputs::neighbour(rng, old),
                    1 => rng.pick(&[1e6, -1e6, 1_000_000.000_000_000_2, old + 1., old - 1., -0.]),
                    _ => inputs::bad(rng, old),
                };
                (at, new.to_bits())
            }
        };
        out.extend([kind as u32, at as u32, (value >> 32) as u32, value as u32]);
    }
    out
}

/// Damages mesh, index and marks as `damage` says.
pub fn damaged(damage: &[u32], mesh: &mut Vec<f64>, h: &mut Handed, marks: &mut Vec<u32>) {
    for d in damage.chunks_exact(4) {
        let (at, value) = (d[1] as usize, (d[2] as u64) << 32 | d[3] as u64);
        let word = value as u32;
        match d[0] {
            0 => h.measures[at % 6] = f64::from_bits(value),
            1 => h.sizes[at % 3] = word,
            2 if at < h.starts.len() => h.starts[at] = word,
            3 if at < h.members.len() => h.members[at] = word,
            4 => h.starts.resize((value as usize).min(1 << 22), 0),
            5 => h.members.resize((value as usize).min(1 << 22), 0),
            6 => marks.resize((value as usize).min(1 << 22), 0),
            7 if at < mesh.len() => mesh[at] = f64::from_bits(value),
            8 => mesh.truncate(value as usize),
            9 => h.boxes.resize((value as usize).min(1 << 22), 0.),
            10 if at < h.boxes.len() => h.boxes[at] = f64::from_bits(value),
            _ => {}
        }
    }
}
