// The cases of a filter: one level, so many levels, and the last of so many.

use crate::MultiLevelDwtRef;
use crate::filters::{Filter, Lent};
use crate::plain::forms;
use crate::rows::Rows;
use crate::samples::{Recording, SAMPLES, Sample, near, same};
use crate::timing::{SHORT, Sides, timed};
use std::hint::black_box;

// The name of a number of levels, and the number.
pub type Levels = (&'static str, usize);

pub fn cases<F: Filter>(recording: &Recording<F::Sample>, depths: &[Levels]) {
    let name = |case: &str| format!("{}{}, {case}", recording.name, F::NAME);
    let rust = F::default();
    forward::<F>(&name("one level, forward"), &rust, recording);
    inverse::<F>(&name("one level, inverse"), &rust, recording);
    for &(depth, levels) in depths {
        multi_dwt::<F>(
            &name(&format!("{depth}, multi_dwt")),
            &rust,
            recording,
            levels,
        );
        multi_idwt::<F>(
            &name(&format!("{depth}, multi_idwt")),
            &rust,
            recording,
            levels,
        );
        dwt::<F>(&name(&format!("{depth}, dwt")), &rust, recording, levels);
    }
}

fn area<T: Default + Clone>(samples: usize) -> Vec<T> {
    vec![T::default(); samples]
}

fn compare<T: Sample>(case: &str, other: &str, port: &[&[T]], bands: &[&[T]]) {
    let agree = port.len() == bands.len() && port.iter().zip(bands).all(|(x, y)| same(x, y));
    assert!(agree, "{case}: {other} differs from the port");
}

// ---- one level

fn forward<F: Filter>(case: &str, rust: &F, recording: &Recording<F::Sample>) {
    let signal = &recording.samples[..];
    let bands = || [area(SAMPLES / 2), area(SAMPLES / 2)];
    let ([mut a, mut d], [mut b, mut e]) = (bands(), bands());
    let forms = forms(F::plain);
    let mut plain: Vec<_> = forms.iter().map(|_| bands()).collect();
    let mut row = rows_of(signal);

    let mut sides = Sides::default();
    sides.add("lent", || {
        rust.execute_forward(black_box(signal), black_box(&mut a), black_box(&mut d))
            .unwrap()
    });
    sides.add("port", || {
        F::bk_forward(black_box(signal), black_box(&mut b), black_box(&mut e))
    });
    for ((name, loops), [a, d]) in forms.iter().zip(&mut plain) {
        sides.add(name, || {
            loops.forward(black_box(signal), black_box(a), black_box(d))
        });
    }
    add_rows(&mut sides, &mut row, |rows| rows.forward, 1);
    sides.measure(case, &SHORT);

    compare(case, "the Rust", &[&b, &e], &[&a, &d]);
    for ((name, _), [a, d]) in forms.iter().zip(&plain) {
        compare(case, name, &[&b, &e], &[a, d]);
    }
    if let Some(row) = row {
        let [mut a, mut d] = bands();
        F::bk_forward(&row.before, &mut a, &mut d);
        compare(
            case,
            "OpenJPEG",
            &[&a, &d],
            &[&row.row[..SAMPLES / 2], &row.row[SAMPLES / 2..]],
        );
    }
}

fn inverse<F: Filter>(case: &str, rust: &F, recording: &Recording<F::Sample>) {
    let [mut approx, mut details] = [area(SAMPLES / 2), area(SAMPLES / 2)];
    rust.execute_forward(&recording.samples, &mut approx, &mut details)
        .unwrap();
    let (approx, details) = (&approx[..], &details[..]);
    let [mut x, mut y] = [area(SAMPLES), area(SAMPLES)];
    let forms = forms(F::plain);
    let mut plain: Vec<_> = forms.iter().map(|_| Lent::new()).collect();
    let mut row = rows_of(&[approx, details].concat());

    let mut sides = Sides::default();
    sides.add("lent", || {
        rust.execute_inverse(black_box(approx), black_box(details), black_box(&mut x))
            .unwrap()
    });
    sides.add("port", || {
        F::bk_inverse(black_box(approx), black_box(details), black_box(&mut y))
    });
    for ((name, loops), lent) in forms.iter().zip(&mut plain) {
        let Lent { from, to, output } = lent;
        sides.add(name, || {
            loops.inverse(
                black_box([approx, details]),
                black_box(output),
                black_box([from, to]),
            )
        });
    }
    add_rows(&mut sides, &mut row, |rows| rows.inverse, 1);
    sides.measure(case, &SHORT);

    compare(case, "the Rust", &[&y], &[&x]);
    for ((name, _), lent) in forms.iter().zip(&plain) {
        compare(case, name, &[&y], &[&lent.output]);
    }
    restored(case, recording, &y);
    if let Some(row) = row {
        let mut samples = area(SAMPLES);
        let (approx, details) = row.before.split_at(SAMPLES / 2);
        F::bk_inverse(approx, details, &mut samples);
        compare(case, "OpenJPEG", &[&samples], &[&row.row]);
    }
}

fn restored<T: Sample>(case: &str, recording: &Recording<T>, samples: &[T]) {
    let comes_back = !recording.comes_back || near(&recording.samples, samples);
    assert!(comes_back, "{case}: the recording does not come back");
}

// ---- OpenJPEG's rows

// A row, what it is before each run, and OpenJPEG's functions on it.
struct Row<T> {
    rows: Rows<T>,
    before: Vec<T>,
    row: Vec<T>,
    work: Vec<T>,
}

fn rows_of<T: Sample>(samples: &[T]) -> Option<Row<T>> {
    T::ROWS.map(|rows| Row {
        before: samples.iter().copied().map(rows.narrow).collect(),
        row: area(SAMPLES),
        work: area(SAMPLES),
        rows,
    })
}

type RowCall<T> = fn(&mut [T], &mut [T], usize);

fn add_rows<'a, T: Sample>(
    sides: &mut Sides<'a>,
    row: &'a mut Option<Row<T>>,
    call: fn(&Rows<T>) -> RowCall<T>,
    levels: usize,
) {
    if let Some(Row {
        rows,
        before,
        row,
        work,
    }) = row
    {
        sides.add_timed("openjpeg", move || {
            row.copy_from_slice(before);
            timed(|| call(rows)(black_box(row), black_box(work), levels))
        });
    }
}

// ---- so many levels

// The Rust's one-level calls into lent slices: deepest approximations, then details deepest first. SAMPLES is a power of two.
fn lent_forward<F: Filter>(
    rust: &F,
    levels: usize,
    signal: &[F::Sample],
    lent: &mut Lent<F::Sample>,
) {
    let Lent { from, to, output } = lent;
    let mut half = SAMPLES / 2;
    rust.execute_forward(signal, &mut to[..half], &mut output[half..])
        .unwrap();
    for _ in 1..levels {
        std::mem::swap(from, to);
        half /= 2;
        let (approx, details) = (&mut to[..half], &mut output[half..2 * half]);
        rust.execute_forward(&from[..2 * half], approx, details)
            .unwrap();
    }
    output[..half].copy_from_slice(&to[..half]);
}

fn lent_inverse<F: Filter>(
    rust: &F,
    levels: usize,
    pyramid: &[F::Sample],
    lent: &mut Lent<F::Sample>,
) {
    let Lent { from, to, output } = lent;
    let mut half = SAMPLES >> levels;
    to[..half].copy_from_slice(&pyramid[..half]);
    while half < SAMPLES / 2 {
        std::mem::swap(from, to);
        let (approx, details) = (&from[..half], &pyramid[half..2 * half]);
        rust.execute_inverse(approx, details, &mut to[..2 * half])
            .unwrap();
        half *= 2;
    }
    rust.execute_inverse(&to[..half], &pyramid[half..], output)
        .unwrap();
}

fn multi_dwt<F: Filter>(case: &str, rust: &F, recording: &Recording<F::Sample>, levels: usize) {
    let signal = &recording.samples[..];
    let [mut a, mut b] = [Lent::new(), Lent::new()];
    let mut row = rows_of(signal);

    let mut sides = Sides::default();
    sides.add("driver", || {
        drop(black_box(rust.multi_dwt(black_box(signal), levels)))
    });
    sides.add("lent", || {
        lent_forward(rust, levels, black_box(signal), black_box(&mut a))
    });
    sides.add("port", || {
        F::bk_multi_dwt(black_box(signal), levels as u32, black_box(&mut b))
    });
    add_rows(&mut sides, &mut row, |rows| rows.forward, levels);
    sides.measure(case, &SHORT);

    compare(case, "the Rust", &[&b.output], &[&a.output]);
    if let Some(row) = row {
        F::bk_multi_dwt(&row.before, levels as u32, &mut b);
        compare(case, "OpenJPEG", &[&b.output], &[&row.row]);
    }
}

fn multi_idwt<F: Filter>(case: &str, rust: &F, recording: &Recording<F::Sample>, levels: usize) {
    let [mut a, mut b] = [Lent::new(), Lent::new()];
    lent_forward(rust, levels, &recording.samples, &mut a);
    let pyramid = a.output.clone();
    let (approximations, details) = pyramid.split_at(SAMPLES >> levels);
    // the Rust wants the details of level 1 first, the port their lengths, deepest first
    let level = |l: usize| &pyramid[SAMPLES >> l..SAMPLES >> (l - 1)];
    let all = MultiLevelDwtRef {
        approximations,
        details: (1..=levels).map(level).collect(),
    };
    let length = |l: usize| (level(l).len() as u32).to_le_bytes();
    let lengths: Vec<u8> = (1..=levels).rev().flat_map(length).collect();
    let mut row = rows_of(&pyramid);

    let mut sides = Sides::default();
    sides.add("driver", || {
        drop(black_box(rust.multi_idwt(black_box(&all))))
    });
    sides.add("lent", || {
        lent_inverse(rust, levels, black_box(&pyramid), black_box(&mut a))
    });
    sides.add("port", || {
        F::bk_multi_idwt(
            black_box(approximations),
            black_box(details),
            &lengths,
            black_box(&mut b),
        )
    });
    add_rows(&mut sides, &mut row, |rows| rows.inverse, levels);
    sides.measure(case, &SHORT);

    compare(case, "the Rust", &[&b.output], &[&a.output]);
    compare(
        case,
        "the Rust's driver",
        &[&b.output],
        &[&rust.multi_idwt(&all).unwrap()],
    );
    restored(case, recording, &b.output);
    if let Some(row) = row {
        let (approximations, details) = row.before.split_at(SAMPLES >> levels);
        F::bk_multi_idwt(approximations, details, &lengths, &mut b);
        compare(case, "OpenJPEG", &[&b.output], &[&row.row]);
    }
}

// The last level's bands.
fn dwt<F: Filter>(case: &str, rust: &F, recording: &Recording<F::Sample>, levels: usize) {
    let signal = &recording.samples[..];
    let [mut a, mut d] = [area(SAMPLES >> levels), area(SAMPLES >> levels)];
    let mut works = Lent::new();

    let mut sides = Sides::default();
    sides.add("driver", || {
        drop(black_box(rust.dwt(black_box(signal), levels)))
    });
    sides.add("port", || {
        F::bk_dwt(
            black_box(signal),
            levels as u32,
            black_box([&mut a, &mut d]),
            black_box(&mut works),
        )
    });
    sides.measure(case, &SHORT);

    let last = rust.dwt(signal, levels).unwrap();
    compare(
        case,
        "the Rust",
        &[&a, &d],
        &[&last.approximations, &last.details],
    );
}
