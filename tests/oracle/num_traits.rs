// A stand-in for the crate num-traits: the four traits that the ported files use, at the types in use.
// Built by the script tests/oracle/osclet as the rlib num_traits.
use std::ops::{Add, Sub};

pub trait AsPrimitive<T: 'static + Copy>: 'static + Copy {
    fn as_(self) -> T;
}

pub trait MulAdd<A = Self, B = Self> {
    type Output;
    fn mul_add(self, a: A, b: B) -> Self::Output;
}

pub trait WrappingAdd: Sized + Add<Self, Output = Self> {
    fn wrapping_add(&self, v: &Self) -> Self;
}

pub trait WrappingSub: Sized + Sub<Self, Output = Self> {
    fn wrapping_sub(&self, v: &Self) -> Self;
}

macro_rules! casts {
    ($($from: ty => $($to: ty)*;)*) => {
        $($(impl AsPrimitive<$to> for $from {
            #[inline]
            fn as_(self) -> $to {
                self as $to
            }
        })*)*
    };
}

casts! {
    i8 => i32;
    i16 => i32;
    i32 => i8 i16 i32 i64;
    i64 => i32;
    f64 => f32 f64;
}

macro_rules! wrapping {
    ($($type: ty)*) => {
        $(impl WrappingAdd for $type {
            #[inline]
            fn wrapping_add(&self, v: &Self) -> Self {
                <$type>::wrapping_add(*self, *v)
            }
        }

        impl WrappingSub for $type {
            #[inline]
            fn wrapping_sub(&self, v: &Self) -> Self {
                <$type>::wrapping_sub(*self, *v)
            }
        })*
    };
}

wrapping!(i8 i16 i32);

// Multiplies, then adds, each rounded: num-traits calls the fused instruction here, document 01 does not.
macro_rules! unfused {
    ($($type: ty)*) => {
        $(impl MulAdd for $type {
            type Output = Self;

            #[inline]
            fn mul_add(self, a: Self, b: Self) -> Self {
                self * a + b
            }
        })*
    };
}

unfused!(f32 f64);
