//! Classes by thresholds of any kind, in any order.

use crate::random::Random;
use crate::readers::Tally;
use crate::reference::byte::value_of;
use crate::reference::pulse::{Class, LONG, MEDIUM, SHORT};

/// Where short, medium and long pulses begin, and where noise begins again.
#[derive(Clone, Copy, Debug)]
pub struct Thresholds(pub [u32; 4]);

/// Those of document 01.
pub const FIXED: Thresholds = Thresholds([200, 440, 608, 960]);

impl Thresholds {
    /// Fixed ones, ones at edges, ones close together or any, mostly in order,
    /// at times with equal ones among them.
    pub fn random(random: &mut Random) -> Self {
        let low = random.edge_pulse();
        let mut numbers = match random.below(4) {
            0 => FIXED.0,
            1 => FIXED.0.map(|_| random.edge_pulse()),
            2 => FIXED.0.map(|_| low.saturating_add(random.below(6) as u32)),
            _ => FIXED.0.map(|_| random.bits() as u32),
        };
        numbers.sort_unstable();
        if random.once_in(4) {
            numbers.swap(random.below(4), random.below(4));
        }
        if random.once_in(4) {
            numbers[random.below(4)] = random.pick(&numbers);
        }
        Self(numbers)
    }

    /// The class of a pulse: what the first threshold above it says.
    pub fn class_of(self, pulse: u32) -> Class {
        let [short, medium, long, noise] = self.0;
        if pulse < short {
            Class::Noise
        } else if pulse < medium {
            Class::Short
        } else if pulse < long {
            Class::Medium
        } else if pulse < noise {
            Class::Long
        } else {
            Class::Noise
        }
    }

    /// What a loop over the bytes of a strip finds: the reference reads the
    /// strip that is written in the same classes.
    pub fn tally(self, pulses: &[u32]) -> Tally {
        let figure = |&pulse: &u32| match self.class_of(pulse) {
            Class::Short => SHORT,
            Class::Medium => MEDIUM,
            Class::Long => LONG,
            Class::Noise => 0,
        };
        let figures: Vec<u32> = pulses.iter().map(figure).collect();
        Tally::by(value_of, &figures)
    }

    /// The pulses on both sides of each threshold, of 0 and of the largest
    /// number, and of the first number with the highest bit.
    pub fn edges(self) -> Vec<u32> {
        let [short, medium, long, noise] = self.0;
        [short, medium, long, noise, 0, 1 << 31]
            .iter()
            .flat_map(|&edge| [edge.wrapping_sub(1), edge, edge.wrapping_add(1)])
            .collect()
    }

    /// A pulse of this class, often at its edge; any pulse where the class has
    /// none.
    pub fn pulse_of(self, random: &mut Random, class: Class) -> u32 {
        let mut edges = self.edges();
        edges.retain(|&edge| self.class_of(edge) == class);
        let (Some(&low), Some(&high)) = (edges.iter().min(), edges.iter().max()) else {
            return random.edge_pulse();
        };
        // All that lie between two pulses of a class are of that class, but for noise.
        if class != Class::Noise && random.once_in(2) {
            random.within(low as usize..=high as usize) as u32
        } else {
            random.pick(&edges)
        }
    }
}

#[cfg(test)]
mod tests {
    use super::*;

    #[test]
    fn the_fixed_ones_are_the_reference() {
        for pulse in FIXED.edges() {
            assert_eq!(FIXED.class_of(pulse), Class::of(pulse), "{pulse}");
        }
    }

    #[test]
    fn pulses_are_of_their_class() {
        let mut random = Random::new(1, 3);
        let mut seen = 0;
        for _ in 0..5000 {
            let thresholds = Thresholds::random(&mut random);
            for class in [Class::Short, Class::Medium, Class::Long, Class::Noise] {
                let pulse = thresholds.pulse_of(&mut random, class);
                let there = thresholds
                    .edges()
                    .iter()
                    .any(|&edge| thresholds.class_of(edge) == class);
                assert!(!there || thresholds.class_of(pulse) == class);
                seen += u32::from(there);
            }
        }
        assert!(seen > 10_000);
    }
}
