//! A seeded source of random numbers (splitmix64).

pub struct Random {
    state: u64,
}

impl Random {
    pub fn new(seed: u64) -> Self {
        Random { state: seed }
    }

    pub fn number(&mut self) -> u64 {
        self.state = self.state.wrapping_add(0x9E37_79B9_7F4A_7C15);
        let mut mixed = self.state;
        mixed = (mixed ^ (mixed >> 30)).wrapping_mul(0xBF58_476D_1CE4_E5B9);
        mixed = (mixed ^ (mixed >> 27)).wrapping_mul(0x94D0_49BB_1331_11EB);
        mixed ^ (mixed >> 31)
    }

    /// A number from 0 to below the bound, which is above 0.
    pub fn below(&mut self, bound: usize) -> usize {
        (self.number() % bound as u64) as usize
    }

    pub fn between(&mut self, least: usize, most: usize) -> usize {
        least + self.below(most - least + 1)
    }

    pub fn one_in(&mut self, number: usize) -> bool {
        self.below(number) == 0
    }

    pub fn pick<T: Copy>(&mut self, choices: &[T]) -> T {
        choices[self.below(choices.len())]
    }

    /// One of the choices, or nothing if there are none.
    pub fn pick_any<T: Copy>(&mut self, choices: &[T]) -> Option<T> {
        (!choices.is_empty()).then(|| self.pick(choices))
    }

    pub fn byte(&mut self) -> u8 {
        self.number() as u8
    }

    /// A byte that is often a small number or 255.
    pub fn likely_byte(&mut self) -> u8 {
        match self.below(8) {
            0 => self.byte(),
            1 => 255,
            _ => self.below(12) as u8,
        }
    }

    /// A value that is often small or an extreme one.
    pub fn value(&mut self) -> i32 {
        match self.below(10) {
            0 => self.pick(&[i32::MIN, i32::MIN + 1, i32::MAX - 1, i32::MAX]),
            1 => self.number() as i32,
            _ => self.below(3) as i32 - 1,
        }
    }
}
