// The pyramid file of the longest recording, written and opened, beside memcpy of its samples.

use crate::filters::{Answer, lend};
use crate::samples::{Sample, drawn};
use crate::timing::{LONG, Sides};
use std::hint::black_box;

const SAMPLES: usize = 16_777_216;
const LEVELS: u32 = 10;
const POINT: u32 = 7;
const WIDTH: u32 = 2;
const RATE: u32 = 25_600_000;
// docs/FORMAT.md: the head, then each section after its count.
const BYTES: usize = 18 + 4 * (LEVELS as usize + 1) + WIDTH as usize * SAMPLES;

unsafe extern "C" {
    fn bk_pyramid_write_i16(
        answer: *mut Answer,
        signal: *const i16,
        signal_length: usize,
        levels: u32,
        point: u32,
        rate: u32,
        file: *mut u8,
        file_length: usize,
        work1: *mut i16,
        work1_length: usize,
        work2: *mut i16,
        work2_length: usize,
    ) -> *mut Answer;
    fn bk_pyramid_open(
        answer: *mut Opened,
        file: *const u8,
        file_length: usize,
        width: u32,
        point: u32,
        output: *mut i16,
        output_length: usize,
        work1: *mut i16,
        work1_length: usize,
        work2: *mut i16,
        work2_length: usize,
    ) -> *mut Opened;
}

// What opening answers.
#[repr(C)]
#[derive(Default)]
struct Opened {
    answer: Answer,
    rate: u32,
}

impl Opened {
    fn done(self) -> Opened {
        Opened {
            answer: self.answer.done(),
            rate: self.rate,
        }
    }
}

type Works<'a> = [&'a mut [i16]; 2];

fn write(signal: &[i16], file: &mut [u8], [from, to]: Works) -> Answer {
    lend!(
        bk_pyramid_write_i16,
        from signal, number LEVELS, number POINT, number RATE, into file, into from, into to
    )
}

fn open(file: &[u8], output: &mut [i16], [from, to]: Works) -> Opened {
    lend!(
        bk_pyramid_open,
        from file, number WIDTH, number POINT, into output, into from, into to
    )
}

pub fn cases() {
    let signal = drawn(SAMPLES, i16::drawn);
    let [mut output, mut from, mut to] = [(); 3].map(|_| vec![0_i16; SAMPLES]);
    let mut file = vec![0_u8; BYTES];

    let mut sides = Sides::default();
    sides.add("port", || {
        write(
            black_box(&signal),
            black_box(&mut file),
            black_box([&mut from, &mut to]),
        );
    });
    sides.add("memcpy", || {
        black_box(&mut output).copy_from_slice(black_box(&signal))
    });
    sides.measure("file: write", &LONG);

    let mut copy = vec![0_i16; SAMPLES];
    output.fill(0);
    let mut sides = Sides::default();
    sides.add("port", || {
        open(
            black_box(&file),
            black_box(&mut output),
            black_box([&mut from, &mut to]),
        );
    });
    sides.add("memcpy", || {
        black_box(&mut copy).copy_from_slice(black_box(&signal))
    });
    sides.measure("file: open", &LONG);

    assert!(
        output == signal,
        "the file does not give the recording back"
    );
    let opened = open(&file, &mut output, [&mut from, &mut to]);
    assert!(
        (opened.answer.first, opened.answer.second, opened.rate) == (0, SAMPLES as u64, RATE),
        "the file opens at another level, or with another rate"
    );
}
