//! Pulses and their classes (document 01, "Pulses").

/// What a pulse counts as on tape.
#[derive(Clone, Copy, Debug, PartialEq, Eq)]
pub enum Class {
    Short,
    Medium,
    Long,
    Noise,
}

/// The pulses as they are written, in cycles.
pub const SHORT: u32 = 360;
pub const MEDIUM: u32 = 520;
pub const LONG: u32 = 688;

impl Class {
    /// The class of a pulse of this many cycles.
    #[inline]
    pub const fn of(pulse: u32) -> Self {
        match pulse {
            200..=439 => Self::Short,
            440..=607 => Self::Medium,
            608..=959 => Self::Long,
            _ => Self::Noise,
        }
    }
}

#[cfg(test)]
mod tests {
    use super::*;

    #[test]
    fn edges_of_the_classes() {
        let cases = [
            (0, Class::Noise),
            (199, Class::Noise),
            (200, Class::Short),
            (439, Class::Short),
            (440, Class::Medium),
            (607, Class::Medium),
            (608, Class::Long),
            (959, Class::Long),
            (960, Class::Noise),
            (u32::MAX, Class::Noise),
        ];
        for (pulse, class) in cases {
            assert_eq!(Class::of(pulse), class, "{pulse}");
        }
    }

    #[test]
    fn written_pulses_have_their_class() {
        assert_eq!(Class::of(SHORT), Class::Short);
        assert_eq!(Class::of(MEDIUM), Class::Medium);
        assert_eq!(Class::of(LONG), Class::Long);
    }
}
