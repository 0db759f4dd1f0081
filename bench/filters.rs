// The filters, as the Rust has them and as the library exports them. A filter is an entry of filters!, and a line of
// USUAL, in floats also of SPECIAL, in bench.rs.

use crate::DwtExecutor;
use crate::cdf53f::Cdf53;
use crate::cdf53i::Cdf53Integer;
use crate::cdf97f::Cdf97;
use crate::plain::{Loops, Plain};
use crate::samples::{SAMPLES, Sample};

// What every exported function answers.
#[repr(C)]
#[derive(Default)]
pub struct Answer {
    number: u32,
    pub first: u64,
    pub second: u64,
}

impl Answer {
    pub fn done(self) -> Answer {
        let Answer {
            number,
            first,
            second,
        } = self;
        assert!(number == 0, "refused {number} ({first}, {second})");
        self
    }
}

// Calls an exported function, which must be done, and gives what it returns. A slice is lent as `from` it (read) or `into` it
// (written).
macro_rules! lend {
    ($call: ident, $($way: ident $argument: expr),*) => {{
        let mut answer = Default::default();
        $crate::filters::lend!(@ $call, (&mut answer), $($way $argument,)*);
        answer.done()
    }};
    (@ $call: ident, ($($given: expr),*), from $slice: expr, $($rest: tt)*) => {
        $crate::filters::lend!(@ $call, ($($given,)* $slice.as_ptr(), size_of_val($slice)), $($rest)*)
    };
    (@ $call: ident, ($($given: expr),*), into $slice: expr, $($rest: tt)*) => {
        $crate::filters::lend!(@ $call, ($($given,)* $slice.as_mut_ptr(), size_of_val($slice)), $($rest)*)
    };
    (@ $call: ident, ($($given: expr),*), number $number: expr, $($rest: tt)*) => {
        $crate::filters::lend!(@ $call, ($($given,)* $number), $($rest)*)
    };
    (@ $call: ident, ($($given: expr),*),) => {
        unsafe { $call($($given),*) }
    };
}
pub(crate) use lend;

// Work areas, and the output.
pub struct Lent<T> {
    pub from: Vec<T>,
    pub to: Vec<T>,
    pub output: Vec<T>,
}

impl<T: Copy + Default> Lent<T> {
    pub fn new() -> Self {
        let area = || vec![T::default(); SAMPLES];
        Lent {
            from: area(),
            to: area(),
            output: area(),
        }
    }
}

// A filter of the Rust, its exported calls, and its plain C.
pub trait Filter: DwtExecutor<<Self as Filter>::Sample> + Default {
    type Sample: Sample;
    const NAME: &str;
    fn bk_forward(
        input: &[Self::Sample],
        approx: &mut [Self::Sample],
        details: &mut [Self::Sample],
    );
    fn bk_inverse(approx: &[Self::Sample], details: &[Self::Sample], output: &mut [Self::Sample]);
    fn bk_multi_dwt(signal: &[Self::Sample], levels: u32, lent: &mut Lent<Self::Sample>);
    fn bk_multi_idwt(
        approx: &[Self::Sample],
        details: &[Self::Sample],
        lengths: &[u8],
        lent: &mut Lent<Self::Sample>,
    );
    fn bk_dwt(
        signal: &[Self::Sample],
        levels: u32,
        bands: [&mut [Self::Sample]; 2],
        lent: &mut Lent<Self::Sample>,
    );
    fn plain(table: &'static Plain) -> &'static [Loops<Self::Sample>];
}

// The exported functions return their Answer by value. On x86-64 that is the same as a pointer to it as first
// argument, which is how the library for Arm takes it (bench/host-staticlib): declared so, they are right on both.
macro_rules! filters {
    ($($name: literal, $filter: ty, $sample: ty, $plain: ident,
       $forward: ident, $inverse: ident, $multi_dwt: ident, $multi_idwt: ident, $dwt: ident;)*) => {
        unsafe extern "C" {
            $(
                fn $forward(
                    answer: *mut Answer,
                    input: *const $sample, input_length: usize,
                    approx: *mut $sample, approx_length: usize,
                    details: *mut $sample, details_length: usize,
                ) -> *mut Answer;
                fn $inverse(
                    answer: *mut Answer,
                    approx: *const $sample, approx_length: usize,
                    details: *const $sample, details_length: usize,
                    output: *mut $sample, output_length: usize,
                ) -> *mut Answer;
                fn $multi_dwt(
                    answer: *mut Answer,
                    signal: *const $sample, signal_length: usize,
                    levels: u32,
                    output: *mut $sample, output_length: usize,
                    work1: *mut $sample, work1_length: usize,
                    work2: *mut $sample, work2_length: usize,
                ) -> *mut Answer;
                fn $multi_idwt(
                    answer: *mut Answer,
                    approx: *const $sample, approx_length: usize,
                    details: *const $sample, details_length: usize,
                    lengths: *const u8, lengths_length: usize,
                    output: *mut $sample, output_length: usize,
                    work1: *mut $sample, work1_length: usize,
                    work2: *mut $sample, work2_length: usize,
                ) -> *mut Answer;
                fn $dwt(
                    answer: *mut Answer,
                    signal: *const $sample, signal_length: usize,
                    levels: u32,
                    approx: *mut $sample, approx_length: usize,
                    details: *mut $sample, details_length: usize,
                    work1: *mut $sample, work1_length: usize,
                    work2: *mut $sample, work2_length: usize,
                ) -> *mut Answer;
            )*
        }

        $(impl Filter for $filter {
            type Sample = $sample;
            const NAME: &str = $name;

            fn bk_forward(input: &[$sample], approx: &mut [$sample], details: &mut [$sample]) {
                lend!($forward, from input, into approx, into details);
            }

            fn bk_inverse(approx: &[$sample], details: &[$sample], output: &mut [$sample]) {
                lend!($inverse, from approx, from details, into output);
            }

            fn bk_multi_dwt(signal: &[$sample], levels: u32, lent: &mut Lent<$sample>) {
                let Lent { from, to, output } = lent;
                lend!(
                    $multi_dwt,
                    from signal, number levels, into &mut output[..], into &mut from[..], into &mut to[..]
                );
            }

            fn bk_multi_idwt(
                approx: &[$sample],
                details: &[$sample],
                lengths: &[u8],
                lent: &mut Lent<$sample>,
            ) {
                let Lent { from, to, output } = lent;
                lend!(
                    $multi_idwt,
                    from approx, from details, from lengths,
                    into &mut output[..], into &mut from[..], into &mut to[..]
                );
            }

            fn bk_dwt(
                signal: &[$sample],
                levels: u32,
                [approx, details]: [&mut [$sample]; 2],
                lent: &mut Lent<$sample>,
            ) {
                let Lent { from, to, .. } = lent;
                lend!(
                    $dwt,
                    from signal, number levels, into approx, into details,
                    into &mut from[..], into &mut to[..]
                );
            }

            fn plain(table: &'static Plain) -> &'static [Loops<$sample>] {
                &table.$plain
            }
        })*
    };
}

// Integers with an intermediate wider than the sample, floats unfused, as document 01 has them.
filters! {
    "5/3 i8", Cdf53Integer<i8, i32>, i8, cdf53_i8,
        bk_cdf53_forward_i8, bk_cdf53_inverse_i8, bk_cdf53_multi_dwt_i8, bk_cdf53_multi_idwt_i8, bk_cdf53_dwt_i8;
    "5/3 i16", Cdf53Integer<i16, i32>, i16, cdf53_i16,
        bk_cdf53_forward_i16, bk_cdf53_inverse_i16, bk_cdf53_multi_dwt_i16, bk_cdf53_multi_idwt_i16, bk_cdf53_dwt_i16;
    "5/3 i32", Cdf53Integer<i32, i64>, i32, cdf53_i32,
        bk_cdf53_forward_i32, bk_cdf53_inverse_i32, bk_cdf53_multi_dwt_i32, bk_cdf53_multi_idwt_i32, bk_cdf53_dwt_i32;
    "5/3 f32", Cdf53<f32>, f32, cdf53_f32,
        bk_cdf53_forward_f32, bk_cdf53_inverse_f32, bk_cdf53_multi_dwt_f32, bk_cdf53_multi_idwt_f32, bk_cdf53_dwt_f32;
    "5/3 f64", Cdf53<f64>, f64, cdf53_f64,
        bk_cdf53_forward_f64, bk_cdf53_inverse_f64, bk_cdf53_multi_dwt_f64, bk_cdf53_multi_idwt_f64, bk_cdf53_dwt_f64;
    "9/7 f32", Cdf97<f32>, f32, cdf97_f32,
        bk_cdf97_forward_f32, bk_cdf97_inverse_f32, bk_cdf97_multi_dwt_f32, bk_cdf97_multi_idwt_f32, bk_cdf97_dwt_f32;
    "9/7 f64", Cdf97<f64>, f64, cdf97_f64,
        bk_cdf97_forward_f64, bk_cdf97_inverse_f64, bk_cdf97_multi_dwt_f64, bk_cdf97_multi_idwt_f64, bk_cdf97_dwt_f64;
}
