// The filters as plain C, bench/plain.c, one table for each compiler that bench/run found.

// One level. The inverse works in two areas of half as many samples as it gives.
#[repr(C)]
pub struct Loops<T> {
    forward: unsafe extern "C" fn(*const T, usize, *mut T, *mut T),
    inverse: unsafe extern "C" fn(*const T, *const T, usize, *mut T, *mut T, *mut T),
}

// Integers have two ways to halve a sum: in a wider type, and in none.
#[repr(C)]
pub struct Plain {
    pub cdf53_i8: [Loops<i8>; 2],
    pub cdf53_i16: [Loops<i16>; 2],
    pub cdf53_i32: [Loops<i32>; 2],
    pub cdf53_f32: [Loops<f32>; 1],
    pub cdf53_f64: [Loops<f64>; 1],
    pub cdf97_f32: [Loops<f32>; 1],
    pub cdf97_f64: [Loops<f64>; 1],
}

// Side by side in a case's line: the name of a compiler, then a colon and the way.
const WAYS: [&str; 2] = ["wide", "narrow"];

unsafe extern "C" {
    #[cfg(clang)]
    static plain_clang: Plain;
    #[cfg(gcc)]
    static plain_gcc: Plain;
}

fn tables() -> Vec<(&'static str, &'static Plain)> {
    vec![
        #[cfg(clang)]
        ("clang", unsafe { &plain_clang }),
        #[cfg(gcc)]
        ("gcc", unsafe { &plain_gcc }),
    ]
}

// Every plain form of a filter, by name.
pub fn forms<T>(of: fn(&'static Plain) -> &'static [Loops<T>]) -> Vec<(String, &'static Loops<T>)> {
    let named = |(compiler, table): (&str, &'static Plain)| {
        let name = move |(loops, way)| (format!("{compiler}:{way}"), loops);
        of(table).iter().zip(WAYS).map(name).collect::<Vec<_>>()
    };
    tables().into_iter().flat_map(named).collect()
}

impl<T> Loops<T> {
    pub fn forward(&self, input: &[T], approx: &mut [T], details: &mut [T]) {
        let half = input.len() / 2;
        assert!(input.len() == 2 * half && approx.len() == half && details.len() == half);
        unsafe {
            (self.forward)(
                input.as_ptr(),
                input.len(),
                approx.as_mut_ptr(),
                details.as_mut_ptr(),
            )
        }
    }

    pub fn inverse(&self, [approx, details]: [&[T]; 2], output: &mut [T], work: [&mut [T]; 2]) {
        let half = output.len() / 2;
        assert!(output.len() == 2 * half && approx.len() == half && details.len() == half);
        assert!(work.iter().all(|area| area.len() >= half));
        let [evens, odds] = work;
        unsafe {
            (self.inverse)(
                approx.as_ptr(),
                details.as_ptr(),
                output.len(),
                output.as_mut_ptr(),
                evens.as_mut_ptr(),
                odds.as_mut_ptr(),
            )
        }
    }
}
