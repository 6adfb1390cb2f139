//! A small deterministic generator, and the random things of a tape.

use std::ops::RangeInclusive;

use crate::reference::pulse::Class;

/// Pulses at the edges of the classes and of the numbers.
pub const EDGES: [u32; 24] = [
    0,
    1,
    198,
    199,
    200,
    201,
    360,
    438,
    439,
    440,
    441,
    520,
    606,
    607,
    608,
    609,
    688,
    958,
    959,
    960,
    961,
    1 << 31,
    u32::MAX - 1,
    u32::MAX,
];

const CLASSES: [Class; 4] = [Class::Short, Class::Medium, Class::Long, Class::Noise];

/// The splitmix64 generator.
#[derive(Clone, Debug)]
pub struct Random(u64);

impl Random {
    /// A generator for one of many runs from the same seed.
    pub fn new(seed: u64, run: u64) -> Self {
        let mut mix = Self(run);
        Self(seed ^ mix.bits())
    }

    /// 64 random bits.
    pub fn bits(&mut self) -> u64 {
        self.0 = self.0.wrapping_add(0x9e37_79b9_7f4a_7c15);
        let mut z = self.0;
        z = (z ^ (z >> 30)).wrapping_mul(0xbf58_476d_1ce4_e5b9);
        z = (z ^ (z >> 27)).wrapping_mul(0x94d0_49bb_1331_11eb);
        z ^ (z >> 31)
    }

    /// A number below `limit`, which is not 0.
    pub fn below(&mut self, limit: usize) -> usize {
        ((u128::from(self.bits()) * limit as u128) >> 64) as usize
    }

    /// A number within a range.
    pub fn within(&mut self, range: RangeInclusive<usize>) -> usize {
        range.start() + self.below(range.end() - range.start() + 1)
    }

    /// True once in `times`.
    pub fn once_in(&mut self, times: usize) -> bool {
        self.below(times) == 0
    }

    /// One of these.
    pub fn pick<T: Copy>(&mut self, from: &[T]) -> T {
        from[self.below(from.len())]
    }

    pub fn byte(&mut self) -> u8 {
        self.bits() as u8
    }

    /// This many bytes, at times all the same or of few values.
    pub fn bytes(&mut self, len: usize) -> Vec<u8> {
        match self.below(8) {
            0 => vec![self.byte(); len],
            1 => {
                let few = [0x00, 0x01, 0x20, 0xff];
                (0..len).map(|_| self.pick(&few)).collect()
            }
            _ => (0..len).map(|_| self.byte()).collect(),
        }
    }

    /// A payload: mostly short, sometimes some hundred bytes, seldom the longest.
    pub fn payload(&mut self) -> Vec<u8> {
        let len = self.payload_len();
        self.bytes(len)
    }

    /// The length of a payload.
    pub fn payload_len(&mut self) -> usize {
        match self.below(400) {
            0 => self.pick(&[8191, 8192]),
            1..=39 => self.within(13..=300),
            _ => self.within(1..=12),
        }
    }

    /// The length of a leader: mostly short, seldom up to the longest.
    pub fn leader(&mut self) -> usize {
        match self.below(200) {
            0 => self.pick(&[65_534, 65_535]),
            1..=9 => self.within(128..=2000),
            10..=100 => 64,
            _ => self.within(64..=127),
        }
    }

    /// A name of this many bytes: letters, spaces inside and at the end, or any bytes.
    pub fn name(&mut self, len: usize) -> Vec<u8> {
        let mut name: Vec<u8> = match self.below(4) {
            0 => self.bytes(len),
            1 => (0..len).map(|_| self.pick(b"A  ")).collect(),
            _ => (0..len).map(|_| self.within(0x20..=0x7e) as u8).collect(),
        };
        if self.once_in(3) {
            let spaces = self.below(len + 1);
            name[len - spaces..].fill(b' ');
        }
        name
    }

    /// A name that fits into a header.
    pub fn fitting_name(&mut self) -> Vec<u8> {
        let len = match self.below(4) {
            0 => self.pick(&[0, 1, 15, 16, 17, 186, 187]),
            1 => self.within(0..=187),
            _ => self.within(0..=18),
        };
        self.name(len)
    }

    /// Room for what needs `need` elements: mostly enough, at times too little.
    pub fn room(&mut self, need: usize) -> usize {
        match self.below(16) {
            0 => need.saturating_sub(1),
            1 => self.below(need + 1),
            2 => self.pick(&[0, need / 2]),
            3..=8 => need,
            9..=10 => need + 1,
            _ => need + self.below(40),
        }
    }

    /// Room that is enough.
    pub fn enough_room(&mut self, need: usize) -> usize {
        match self.below(3) {
            0 => need,
            1 => need + 1,
            _ => need + self.below(60),
        }
    }

    /// A pulse of this class, often at its edge.
    pub fn pulse_of(&mut self, class: Class) -> u32 {
        let (low, high) = match class {
            Class::Short => (200, 439),
            Class::Medium => (440, 607),
            Class::Long => (608, 959),
            Class::Noise => return self.noise(),
        };
        let pulse = match self.below(8) {
            0 => low,
            1 => high,
            _ => self.within(low..=high),
        };
        pulse as u32
    }

    fn noise(&mut self) -> u32 {
        match self.below(6) {
            0 => 199,
            1 => 960,
            2 => self.below(200) as u32,
            3 => self.within(960..=5000) as u32,
            4 => self.pick(&[0, 1, 1 << 31, u32::MAX]),
            _ => self.within(960..=u32::MAX as usize) as u32,
        }
    }

    /// A pulse of any class but this one.
    pub fn pulse_not_of(&mut self, class: Class) -> u32 {
        let mut other = self.pick(&CLASSES);
        while other == class {
            other = self.pick(&CLASSES);
        }
        self.pulse_of(other)
    }

    /// A pulse at an edge of a class, or any number.
    pub fn edge_pulse(&mut self) -> u32 {
        if self.once_in(30) {
            self.bits() as u32
        } else {
            self.pick(&EDGES)
        }
    }

    /// A pulse of any class.
    pub fn any_pulse(&mut self) -> u32 {
        let class = self.pick(&CLASSES);
        self.pulse_of(class)
    }
}

#[cfg(test)]
mod tests {
    use super::*;

    #[test]
    fn the_same_seed_gives_the_same_numbers() {
        let mut one = Random::new(5, 6);
        let mut two = Random::new(5, 6);
        let mut other = Random::new(5, 7);
        let bits = one.bits();
        assert_eq!(bits, two.bits());
        assert_ne!(bits, other.bits());
    }

    #[test]
    fn pulses_are_of_their_class() {
        let mut random = Random::new(1, 1);
        for class in CLASSES {
            for _ in 0..5000 {
                assert_eq!(Class::of(random.pulse_of(class)), class);
                assert_ne!(Class::of(random.pulse_not_of(class)), class);
            }
        }
    }

    #[test]
    fn numbers_fill_their_range() {
        let mut random = Random::new(1, 2);
        let mut seen = [0; 4];
        for _ in 0..1000 {
            seen[random.within(3..=6) - 3] += 1;
        }
        assert!(seen.iter().all(|&times| times > 150));
    }
}
