//! Binary STL files beside a plain Rust reader, and every f32 through both.

use crate::case::Case;
use crate::doors::Lent;
use crate::parts::{Part, Tally};
use crate::rng::Rng;

unsafe extern "C" {
    pub fn mandrikelo_read_stl(bytes: *const u8, bytes_len: usize, mesh: *mut f64, mesh_len: usize, count: *mut u32) -> u32;
}

pub const PART: Part = Part {
    name: "stl",
    doors: &["read_stl"],
    make,
    compare,
    widths: &[],
    unit: "STL files",
    share: 3_000,
};

const HEAD: usize = 84;
const TRIANGLE: usize = 50;

/// Document 02's reader as one writes it in Rust: the refusal, or 0, and the triangles read, after 19 those whole before the cut.
pub fn plain(bytes: &[u8], mesh: &mut [f64]) -> (u32, u32) {
    if bytes.len() < HEAD {
        return (14, 0);
    }
    let n = u32::from_le_bytes(bytes[80..84].try_into().unwrap()) as usize;
    if n == 0 || n > 65_536 || n > mesh.len() / 9 {
        return (18, 0);
    }
    let body = &bytes[HEAD..];
    if body.len() < TRIANGLE * n {
        return (19, (body.len() / TRIANGLE) as u32);
    }
    if body.len() > TRIANGLE * n {
        return (21, 0);
    }
    let number = |b: &[u8]| f32::from_le_bytes(b.try_into().unwrap());
    for triangle in body.chunks_exact(TRIANGLE) {
        if triangle[12..48].chunks_exact(4).any(|b| !number(b).is_finite()) {
            return (20, 0);
        }
    }
    for (triangle, nine) in body.chunks_exact(TRIANGLE).zip(mesh.chunks_exact_mut(9)) {
        for (b, x) in triangle[12..48].chunks_exact(4).zip(nine) {
            *x = number(b) as f64;
        }
    }
    (0, n as u32)
}

/// A file with these vertices, nine numbers a triangle; whatever does not matter is made up.
fn file(rng: &mut Rng, vertices: &[u32]) -> Vec<u8> {
    let mut out: Vec<u8> = (0..80).map(|_| rng.bits() as u8).collect();
    if rng.one_in(2) {
        out[..5].copy_from_slice(b"solid");
    }
    out.extend((vertices.len() as u32 / 9).to_le_bytes());
    for nine in vertices.chunks(9) {
        for _ in 0..3 {
            out.extend(any(rng).to_le_bytes());
        }
        nine.iter().for_each(|x| out.extend(x.to_le_bytes()));
        out.extend((rng.bits() as u16).to_le_bytes());
    }
    out
}

const ENDLESS: u32 = 0x7f80_0000;

/// The bits of an f32: any, or zeros, subnormals, the least and largest of a kind, infinities and NaNs.
fn any(rng: &mut Rng) -> u32 {
    let sign = (rng.bits() as u32) << 31;
    match rng.below(8) {
        0 => sign,
        1 => sign | rng.bits() as u32 & 0x7f_ffff,
        2 => sign | rng.pick(&[1, 0x7f_ffff, 0x80_0000, 0x7f7f_ffff, 0x3f80_0000, 0x4974_2400, 0x4974_2401]),
        3 => sign | rng.pick(&[ENDLESS, ENDLESS + 1, 0x7fc0_0000, 0x7fff_ffff]),
        4 => (rng.between(-2e3, 2e3) as f32).to_bits(),
        _ => rng.bits() as u32,
    }
}

fn finite(rng: &mut Rng) -> u32 {
    loop {
        let bits = any(rng);
        if f32::from_bits(bits).is_finite() {
            return bits;
        }
    }
}

/// A sound file of n triangles.
pub fn sample(n: usize) -> Vec<u8> {
    let mut rng = Rng::new(1, "stl", 0);
    let vertices: Vec<u32> = (0..9 * n).map(|_| finite(&mut rng)).collect();
    file(&mut rng, &vertices)
}

/// A file of four triangles cut at each length, with each bit changed, and with each pattern in each f32 come first; then files of all
/// sizes, damaged or not.
fn make(rng: &mut Rng, case: u64, damage: bool) -> Case {
    let n = if case < 3_000 { 4 } else { 1 + rng.below(8) };
    let vertices: Vec<u32> = (0..9 * n).map(|_| finite(rng)).collect();
    let mut bytes = file(rng, &vertices);
    let mut room = vec![(vertices.len() as u64 + rng.below(12)) as u32];
    let whole = bytes.len() as u64;
    if case < 300 {
        bytes.resize(case as usize, 7);
    } else if case < 300 + 8 * whole {
        let k = case - 300;
        bytes[k as usize / 8] ^= 1 << (k % 8);
    } else if case < 3_000 {
        let pattern = [ENDLESS, ENDLESS | 1 << 31, 0x7fc0_0000, u32::MAX, ENDLESS + 1, 0x7f7f_ffff, 1 << 31, 1][case as usize % 8];
        let k = case as usize / 8 % 48;
        let at = HEAD + TRIANGLE * (k / 12) + 4 * (k % 12);
        bytes[at..at + 4].copy_from_slice(&pattern.to_le_bytes());
    } else if damage || rng.one_in(2) {
        harm(rng, &mut bytes, &mut room);
    }
    // Counts at their limits, with the length to match.
    if case >= 3_000 && rng.one_in(20_000) {
        let n: u32 = rng.pick(&[65_535, 65_536, 65_537]);
        bytes.resize(HEAD + TRIANGLE * n as usize, 0);
        bytes[80..84].copy_from_slice(&n.to_le_bytes());
        room = vec![9 * 65_540];
    }
    Case::new("stl").bytes("bytes", bytes).words("room", room)
}

fn harm(rng: &mut Rng, bytes: &mut Vec<u8>, room: &mut [u32]) {
    let length = bytes.len() as u64;
    match rng.below(8) {
        0 | 1 => bytes[rng.below(length) as usize] = rng.bits() as u8,
        2 => bytes.truncate(rng.below(length + 1) as usize),
        3 => bytes.resize(bytes.len() + 1 + rng.below(100) as usize, 0),
        4 => {
            let n: u32 = rng.pick(&[0, 1, 2, 65_535, 65_536, 65_537, u32::MAX, 0x0400_0000, 85_899_345]);
            bytes[80..84].copy_from_slice(&n.to_le_bytes());
        }
        5 => room[0] = rng.below(80) as u32,
        _ => {
            let k = rng.below((length - 84) / 50 * 12) as usize;
            let at = HEAD + TRIANGLE * (k / 12) + 4 * (k % 12);
            bytes[at..at + 4].copy_from_slice(&(ENDLESS | rng.bits() as u32).to_le_bytes());
        }
    }
}

fn compare(case: &Case, tally: &mut Tally) -> Result<(), String> {
    let (bytes, room) = (case.b("bytes"), case.u("room")[0]);
    let mut expected: Vec<f64> = (0..room).map(|i| i as f64 * 3. + 0.25).collect();
    let (mut mesh, mut count) = (Lent::new(&expected), Lent::room(1, 77u32));
    let refusal = unsafe { mandrikelo_read_stl(bytes.as_ptr(), bytes.len(), mesh.at(), mesh.len(), count.at()) };
    let rust = plain(bytes, &mut expected);
    tally.add("files", 1);
    tally.unit();
    tally.note(&format!("refusal {}", rust.0), 1);
    if !mesh.intact() || !count.intact() {
        return Err("a guard word was changed".into());
    }
    if (refusal, count.get()[0]) != rust {
        return Err(format!("stl: refusal and count {:?}, the Rust's {rust:?}", (refusal, count.get()[0])));
    }
    if !mesh.holds(&expected) {
        return Err("stl: the mesh does not hold what was read".into());
    }
    Ok(())
}

/// `compare singles`: all 2^32 patterns of an f32 through the reader, beside Rust's `as f64`. A finite one has to come out with the same
/// bits, each other one to be refused with 20.
pub fn singles() {
    const MOST: u32 = 65_536;
    let mut bytes = vec![0u8; HEAD + TRIANGLE * MOST as usize];
    let mut mesh = Lent::room(9 * MOST as usize, 0.25);
    let mut count = Lent::room(1, 77u32);
    let mut read = |bytes: &mut [u8], patterns: &[u32], mesh: &mut Lent<f64>| {
        let n = patterns.len().div_ceil(9);
        bytes[80..84].copy_from_slice(&(n as u32).to_le_bytes());
        for (k, p) in patterns.iter().enumerate() {
            let at = HEAD + TRIANGLE * (k / 9) + 12 + 4 * (k % 9);
            bytes[at..at + 4].copy_from_slice(&p.to_le_bytes());
        }
        unsafe { mandrikelo_read_stl(bytes.as_ptr(), HEAD + TRIANGLE * n, mesh.at(), mesh.len(), count.at()) }
    };
    let (mut same, mut refused, mut differ) = (0u64, 0u64, 0u64);
    let mut patterns = Vec::with_capacity(9 * MOST as usize);
    for p in 0..=u32::MAX {
        if !f32::from_bits(p).is_finite() {
            if read(&mut bytes[..HEAD + TRIANGLE], &[p], &mut mesh) == 20 { refused += 1 } else { differ += 1 }
            bytes[HEAD..HEAD + TRIANGLE].fill(0);
        } else {
            patterns.push(p);
        }
        if patterns.len() == 9 * MOST as usize || p == u32::MAX {
            let refusal = read(&mut bytes, &patterns, &mut mesh);
            for (p, x) in patterns.iter().zip(mesh.get()) {
                if refusal == 0 && x.to_bits() == (f32::from_bits(*p) as f64).to_bits() { same += 1 } else { differ += 1 }
            }
            patterns.clear();
        }
    }
    if !mesh.intact() {
        differ += 1;
    }
    println!("f32 patterns: {same} with the same bits as Rust's, {refused} refused with 20, {differ} differ");
    if differ != 0 {
        std::process::exit(1);
    }
}
