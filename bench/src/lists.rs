//! The inputs, the same on every machine.

/// A chart with its rows in whole bytes, and where its walk begins.
pub struct Chart {
    pub side: usize,
    pub bytes: Vec<u8>,
    pub start: [i32; 2],
}

pub struct List {
    pub name: &'static str,
    pub points: Vec<[i32; 2]>,
    pub closed: bool,
}

/// How many points a list has that is the worst case of some call. Where each split takes one point off,
/// that is half a million distances; 4,096 points would be 8 million.
const WORST: i32 = 1024;

/// All lists but those that come of the coast.
pub fn lists() -> Vec<List> {
    let open = |name, points| List { name, points, closed: false };
    let worst = |name, at: fn(i32) -> [i32; 2]| open(name, (0..WORST).map(at).collect());
    vec![
        open("shore", shore(4096)),
        worst("collinear", |i| [3 * i, i]),
        worst("all equal", |_| [7, 7]),
        worst("zigzag", |i| [i, i % 2 * i]),
        worst("comb", |i| [i / 2 * 4, (i + 1) / 2 % 2 * 64]),
    ]
}

/// Points entered again, as many as a list may have: one run of them, and two.
pub fn runs() -> [List; 2] {
    let two = [[[7, 7]; 2048], [[8, 8]; 2048]].concat();
    let of = |name, points| List { name, points, closed: true };
    [of("one run", vec![[7, 7]; 4096]), of("two runs", two)]
}

/// A ragged island that fills a chart of 512 by 512.
pub fn coast() -> Chart {
    chart(|x, y| {
        let (dx, dy) = (2 * x - 511, 2 * y - 511);
        dx * dx + dy * dy + (7 * x + 13 * y) % 11 * 150 < SIDE * SIDE
    })
}

/// Two bars with teeth of one pixel above and below, held together by one of these: an outline of 4,095
/// points.
pub fn teeth() -> Chart {
    chart(|x, y| match y {
        0 | 2 | 4 | 6 => x % 2 == 0,
        1 | 5 => true,
        3 => x == 0,
        7 => x >= 510,
        _ => false,
    })
}

const SIDE: i32 = 512;

fn chart(is_land: impl Fn(i32, i32) -> bool) -> Chart {
    let cells = || (0..SIDE * SIDE).map(|cell| [cell % SIDE, cell / SIDE]);
    let start = cells().find(|&[x, y]| is_land(x, y)).expect("land");
    let bits: Vec<bool> = cells().map(|[x, y]| is_land(x, y)).collect();
    let byte = |bits: &[bool]| bits.iter().fold(0, |byte, &bit| byte << 1 | u8::from(bit));
    Chart { side: SIDE as usize, bytes: bits.chunks(8).map(byte).collect(), start }
}

/// A random walk of short steps.
fn shore(n: usize) -> Vec<[i32; 2]> {
    let mut random = Random(10);
    let reach = random.within(1, 6);
    let mut at = [0; 2].map(|_| random.within(-100, 100));
    let mut points = Vec::new();
    for _ in 0..n {
        points.push(at);
        at = at.map(|v| v + random.within(-reach, reach));
    }
    points
}

/// Doubles of all sizes, above zero.
pub fn squares(n: usize) -> Vec<f64> {
    let mut random = Random(1);
    let mut square = || f64::from_bits((random.next() >> 1).clamp(1 << 52, 0x7fef << 48));
    (0..n).map(|_| square()).collect()
}

/// The generator of all random choices: splitmix64.
struct Random(u64);

impl Random {
    fn next(&mut self) -> u64 {
        self.0 = self.0.wrapping_add(0x9e37_79b9_7f4a_7c15);
        let mut z = self.0;
        z = (z ^ (z >> 30)).wrapping_mul(0xbf58_476d_1ce4_e5b9);
        z = (z ^ (z >> 27)).wrapping_mul(0x94d0_49bb_1331_11eb);
        z ^ (z >> 31)
    }

    fn within(&mut self, low: i32, high: i32) -> i32 {
        low + (self.next() % (high - low + 1) as u64) as i32
    }
}
