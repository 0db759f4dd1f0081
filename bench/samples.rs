// Samples, and the recordings that the cases take.

use crate::rows::{self, Rows};
use std::fmt::Debug;

pub const SAMPLES: usize = 65_536;

pub trait Sample: Copy + Debug + Default + 'static {
    // The row functions of OpenJPEG, which has them at 32 bits alone.
    const ROWS: Option<Rows<Self>>;
    // Of 48 random bits: an integer of the whole range, a float between -1 and 1.
    fn drawn(bits: u64) -> Self;
    // Whether two sides gave the same: the same bits, or a NaN and a NaN.
    fn is_same(self, other: Self) -> bool;
    // Whether the inverse may give back the other: in integers the sample alone, in floats also one beside it.
    fn is_near(self, other: Self) -> bool;
}

// A float too large for the port's loops without a test is one past 2^LEAST.
pub trait Float: Sample {
    const NAN: Self;
    const INFINITIES: [Self; 2];
    const LEAST: i32;
    // Of 48 random bits: one from there up to about 2^100 (f32) or 2^900 (f64), of either sign.
    fn large(bits: u64) -> Self;
}

macro_rules! integers {
    ($($type: ty, $rows: expr;)*) => {
        $(impl Sample for $type {
            const ROWS: Option<Rows<Self>> = $rows;

            fn drawn(bits: u64) -> Self {
                bits as $type
            }

            fn is_same(self, other: Self) -> bool {
                self == other
            }

            fn is_near(self, other: Self) -> bool {
                self == other
            }
        })*
    };
}

macro_rules! floats {
    ($($type: ty, $least: literal, $most: literal;)*) => {
        $(impl Sample for $type {
            const ROWS: Option<Rows<Self>> = None;

            fn drawn(bits: u64) -> Self {
                (bits as f64 / (1_u64 << 47) as f64 - 1.0) as $type
            }

            fn is_same(self, other: Self) -> bool {
                self.to_bits() == other.to_bits() || self.is_nan() && other.is_nan()
            }

            fn is_near(self, other: Self) -> bool {
                (self - other).abs() <= 64.0 * <$type>::EPSILON
            }
        }

        impl Float for $type {
            const NAN: Self = <$type>::NAN;
            const INFINITIES: [Self; 2] = [<$type>::INFINITY, <$type>::NEG_INFINITY];
            const LEAST: i32 = $least;

            fn large(bits: u64) -> Self {
                let exponent = $least + (bits % ($most - $least)) as i32;
                let sign = if bits & 1 << 47 == 0 { 1.0 } else { -1.0 };
                let fraction = 1.0 + (bits >> 16 & 0x7fff_ffff) as f64 / (1_u64 << 31) as f64;
                (sign * fraction * 2_f64.powi(exponent)) as $type
            }
        })*
    };
}

integers! {
    i8, None;
    i16, None;
    i32, rows::ROWS;
}
floats! {
    f32, 65, 100;
    f64, 769, 900;
}

pub fn same<T: Sample>(one: &[T], other: &[T]) -> bool {
    one.len() == other.len() && one.iter().zip(other).all(|(x, y)| x.is_same(*y))
}

pub fn near<T: Sample>(one: &[T], other: &[T]) -> bool {
    one.len() == other.len() && one.iter().zip(other).all(|(x, y)| x.is_near(*y))
}

pub struct Recording<T> {
    // Stands before the filter in a case's name.
    pub name: String,
    pub samples: Vec<T>,
    // Whether the inverse gives it back.
    pub comes_back: bool,
}

pub fn drawn<T>(count: usize, sample: fn(u64) -> T) -> Vec<T> {
    let mut bits = 0x9e37_79b9_7f4a_7c15_u64;
    let next = || {
        bits ^= bits << 13;
        bits ^= bits >> 7;
        bits ^= bits << 17;
        sample(bits >> 16)
    };
    std::iter::repeat_with(next).take(count).collect()
}

pub fn usual<T: Sample>() -> Recording<T> {
    Recording {
        name: String::new(),
        samples: drawn(SAMPLES, T::drawn),
        comes_back: true,
    }
}

// Three that leave the port's loops without a test, the first of them in one block.
pub fn special<T: Float>() -> [Recording<T>; 3] {
    let mut one_nan = drawn(SAMPLES, T::drawn);
    one_nan[SAMPLES / 2] = T::NAN;
    let mut infinities = drawn(SAMPLES, T::drawn);
    let places = infinities.iter_mut().step_by(97);
    for (sample, infinity) in places.zip(T::INFINITIES.iter().cycle()) {
        *sample = *infinity;
    }
    let large = drawn(SAMPLES, T::large);
    [
        ("one NaN: ".to_string(), one_nan),
        ("infinities: ".to_string(), infinities),
        (format!("past 2^{}: ", T::LEAST), large),
    ]
    .map(|(name, samples)| Recording {
        name,
        samples,
        comes_back: false,
    })
}
