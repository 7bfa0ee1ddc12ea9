//! The float functions whose results the standard library leaves open, or takes from the platform, as the
//! port defines them. `sqrt`, `clamp` and `abs` are fixed by IEEE 754 and the standard library; they stand
//! here so that the list is whole.

pub(crate) trait StandIns {
    fn standin_max(self, other: f32) -> f32;
    fn standin_min(self, other: f32) -> f32;
    fn standin_clamp(self, low: f32, high: f32) -> f32;
    fn standin_abs(self) -> f32;
    fn standin_sqrt(self) -> f32;
    fn standin_acos(self) -> f32;
}

/// Abramowitz and Stegun 4.4.46, constant first.
const COEFFICIENTS: [f32; 8] = [
    1.5707963050,
    -0.2145988016,
    0.0889789874,
    -0.0501743046,
    0.0308918810,
    -0.0170881256,
    0.0066700901,
    -0.0012624911,
];

impl StandIns for f32 {
    fn standin_max(self, other: f32) -> f32 {
        if self.is_nan() || self < other {
            other
        } else {
            self
        }
    }

    fn standin_min(self, other: f32) -> f32 {
        if self.is_nan() || other < self {
            other
        } else {
            self
        }
    }

    fn standin_clamp(self, low: f32, high: f32) -> f32 {
        if self < low {
            low
        } else if self > high {
            high
        } else {
            self
        }
    }

    fn standin_abs(self) -> f32 {
        f32::from_bits(self.to_bits() & 0x7FFF_FFFF)
    }

    fn standin_sqrt(self) -> f32 {
        self.sqrt()
    }

    fn standin_acos(self) -> f32 {
        if self.is_nan() {
            return f32::NAN;
        }
        if self < 0.0 {
            return std::f32::consts::PI - (-self).standin_acos();
        }
        let horner = COEFFICIENTS[..7].iter().rev().fold(COEFFICIENTS[7], |sum, a| sum * self + a);
        (1.0 - self).standin_sqrt() * horner
    }
}
