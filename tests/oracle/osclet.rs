// The root that osclet's src/lib.rs would be: its three lifting modules, unchanged, and the traits and structs that
// they name, trimmed to what they use. Included at the top of a program (main.rs here, bench/bench.rs), which is built
// with OSCLET_SRC in its environment and the stand-in for num-traits (the script osclet beside this file).

use num_traits::MulAdd;
use std::fmt::Debug;
use std::ops::{Add, Mul, Neg, Sub};

#[allow(warnings)]
mod cdf53f {
    include!(concat!(env!("OSCLET_SRC"), "/src/cdf53f.rs"));
}
#[allow(warnings)]
mod cdf53i {
    include!(concat!(env!("OSCLET_SRC"), "/src/cdf53i.rs"));
}
#[allow(warnings)]
mod cdf97f {
    include!(concat!(env!("OSCLET_SRC"), "/src/cdf97f.rs"));
}
#[allow(warnings)]
mod err {
    include!(concat!(env!("OSCLET_SRC"), "/src/err.rs"));
}
#[allow(warnings)]
mod mla {
    include!(concat!(env!("OSCLET_SRC"), "/src/mla.rs"));
}

use crate::err::OscletError;

// The modules see osclet's trait without the providers of its other wavelets.
pub(crate) trait WaveletSample:
    Copy
    + 'static
    + MulAdd<Self, Output = Self>
    + Add<Self, Output = Self>
    + Sub<Self, Output = Self>
    + Mul<Self, Output = Self>
    + Neg<Output = Self>
    + Default
    + Send
    + Debug
    + Sync
{
}

impl WaveletSample for f32 {}
impl WaveletSample for f64 {}

#[derive(Clone, Copy, Debug)]
pub struct DwtSize {
    pub approx_length: usize,
    pub details_length: usize,
}

// The modules implement more of these traits than a request asks for.
#[allow(dead_code)]
pub trait DwtForwardExecutor<T> {
    fn execute_forward(
        &self,
        input: &[T],
        approx: &mut [T],
        details: &mut [T],
    ) -> Result<(), OscletError>;
    fn execute_forward_with_scratch(
        &self,
        input: &[T],
        approx: &mut [T],
        details: &mut [T],
        scratch: &mut [T],
    ) -> Result<(), OscletError>;
    fn required_scratch_size(&self, input_length: usize) -> usize;
    fn dwt_size(&self, input_length: usize) -> DwtSize;
}

#[allow(dead_code)]
pub trait DwtInverseExecutor<T> {
    fn execute_inverse(
        &self,
        approx: &[T],
        details: &[T],
        output: &mut [T],
    ) -> Result<(), OscletError>;
    fn idwt_size(&self, input_length: DwtSize) -> usize;
}

#[allow(dead_code)]
pub trait IncompleteDwtExecutor<T>:
    DwtForwardExecutor<T> + DwtInverseExecutor<T> + Send + Sync
{
    fn filter_length(&self) -> usize;
}

pub struct Dwt<T> {
    pub approximations: Vec<T>,
    pub details: Vec<T>,
}

pub struct DwtRef<'a, T> {
    pub approximations: &'a [T],
    pub details: &'a [T],
}

// One Dwt for each level, level 1 first.
pub struct MultiDwt<T> {
    pub levels: Vec<Dwt<T>>,
}

// Details of level 1 first.
pub struct MultiLevelDwtRef<'a, T> {
    pub approximations: &'a [T],
    pub details: Vec<&'a [T]>,
}

pub trait DwtExecutor<T>: IncompleteDwtExecutor<T> + Send + Sync {
    fn dwt(&self, signal: &[T], level: usize) -> Result<Dwt<T>, OscletError>;
    fn multi_dwt(&self, signal: &[T], levels: usize) -> Result<MultiDwt<T>, OscletError>;
    fn idwt(&self, dwt: &DwtRef<'_, T>) -> Result<Vec<T>, OscletError>;
    fn multi_idwt(&self, dwt: &MultiLevelDwtRef<'_, T>) -> Result<Vec<T>, OscletError>;
}
