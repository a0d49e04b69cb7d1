//! Numbers from a seed: the same on every machine.

pub struct Rng(u64);

impl Rng {
    pub fn new(seed: u64) -> Self {
        let mut r = Rng(seed.wrapping_mul(0x9e37_79b9_7f4a_7c15) ^ 0x5851_f42d_4c95_7f2d);
        r.next();
        r
    }

    /// splitmix64
    pub fn next(&mut self) -> u64 {
        self.0 = self.0.wrapping_add(0x9e37_79b9_7f4a_7c15);
        let mut z = self.0;
        z = (z ^ (z >> 30)).wrapping_mul(0xbf58_476d_1ce4_e5b9);
        z = (z ^ (z >> 27)).wrapping_mul(0x94d0_49bb_1331_11eb);
        z ^ (z >> 31)
    }

    /// 0 to n - 1
    pub fn below(&mut self, n: u64) -> u64 {
        self.next() % n
    }

    /// a to b, both included
    pub fn int(&mut self, a: i64, b: i64) -> i64 {
        a + self.below((b - a + 1) as u64) as i64
    }

    /// 0 to 1, 1 left out
    pub fn unit(&mut self) -> f64 {
        (self.next() >> 11) as f64 / (1u64 << 53) as f64
    }

    pub fn range(&mut self, a: f64, b: f64) -> f64 {
        a + (b - a) * self.unit()
    }

    /// 10 to the a, to 10 to the b, evenly in the exponent
    pub fn decades(&mut self, a: f64, b: f64) -> f64 {
        10f64.powf(self.range(a, b))
    }

    pub fn chance(&mut self, p: f64) -> bool {
        self.unit() < p
    }

    pub fn pick<T: Copy>(&mut self, from: &[T]) -> T {
        from[self.below(from.len() as u64) as usize]
    }

    /// Near enough to a normal distribution for a sensor's noise.
    pub fn bell(&mut self) -> f64 {
        (0..4).map(|_| self.unit()).sum::<f64>() * 1.732 - 3.464
    }

    pub fn bytes(&mut self, n: usize) -> Vec<u8> {
        let mut out = Vec::with_capacity(n + 8);
        while out.len() < n {
            out.extend_from_slice(&self.next().to_le_bytes());
        }
        out.truncate(n);
        out
    }

    /// Any float: specials, whole numbers and their neighbours, ordinary ones of many sizes, any bits.
    pub fn float(&mut self) -> f64 {
        const SPECIAL: [f64; 24] = [
            0.0,
            -0.0,
            1.0,
            -1.0,
            0.5,
            2.0,
            1e-9,
            -1e-9,
            1e-6,
            12.0,
            f64::EPSILON,
            f64::MIN_POSITIVE,
            5e-324,
            -5e-324,
            f64::MAX,
            f64::MIN,
            f64::INFINITY,
            f64::NEG_INFINITY,
            f64::NAN,
            1048576.0,
            -1048576.0,
            4294967296.0,
            1.340_780_792_994_259_7e154,
            1.491_668_146_240_041_3e-154,
        ];
        match self.below(12) {
            0 => self.pick(&SPECIAL),
            1 => self.int(-20, 20) as f64,
            2 => neighbour(self.int(-20, 20) as f64, self.int(-2, 2)),
            3 => neighbour(self.pick(&SPECIAL), self.int(-2, 2)),
            4 => f64::from_bits(self.next()),
            5 => self.range(-1.0, 1.0) * self.decades(-320.0, 308.0),
            6 => self.range(-1.0, 1.0) * self.decades(-12.0, 12.0),
            7 => self.range(-1.0, 1.0),
            8 => self.int(-8, 8) as f64 / 4.0,
            _ => self.range(-100.0, 100.0),
        }
    }
}

/// The float so many steps away.
pub fn neighbour(x: f64, steps: i64) -> f64 {
    if !x.is_finite() {
        return x;
    }
    let ordered = |b: u64| if b >> 63 == 0 { b as i64 } else { -((b & !(1 << 63)) as i64) };
    let n = ordered(x.to_bits()) + steps;
    if n < 0 {
        f64::from_bits((-n) as u64 | 1 << 63)
    } else {
        f64::from_bits(n as u64)
    }
}
