//! A small generator of random numbers (splitmix64), the same on every machine.

pub struct Rng(u64);

impl Rng {
    /// The generator of one case of a seed.
    pub fn new(seed: u64, case: u64) -> Rng {
        let mut rng = Rng(seed);
        Rng(rng
            .draw()
            .wrapping_add(case.wrapping_mul(0xD134_2543_DE82_EF95)))
    }

    pub fn draw(&mut self) -> u64 {
        self.0 = self.0.wrapping_add(0x9E37_79B9_7F4A_7C15);
        let mut z = self.0;
        z = (z ^ (z >> 30)).wrapping_mul(0xBF58_476D_1CE4_E5B9);
        z = (z ^ (z >> 27)).wrapping_mul(0x94D0_49BB_1331_11EB);
        z ^ (z >> 31)
    }

    /// A number below `end`.
    pub fn below(&mut self, end: usize) -> usize {
        (self.draw() % end as u64) as usize
    }

    /// True once in `times`.
    pub fn once_in(&mut self, times: usize) -> bool {
        self.below(times) == 0
    }

    /// True with `parts` in 65,536.
    pub fn parts(&mut self, parts: usize) -> bool {
        self.below(65_536) < parts
    }

    pub fn bit(&mut self) -> bool {
        self.draw() >> 63 != 0
    }

    pub fn of<T: Copy>(&mut self, list: &[T]) -> T {
        list[self.below(list.len())]
    }
}
