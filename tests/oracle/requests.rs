// What a request line asks of the Rust, and its answer in the documents' numbers.
// Of slices that it would make itself the Rust says nothing: the 2 and 17 of dwt's bands and the 3 of multi_dwt's
// and multi_idwt's output are said here, by the documents and in their order. Other answers that document 01
// adds to the Rust are `-`. A wrong details length in another call, which the Rust answers as one of
// approximations, is answered as document 02 says (`by_document_02`).

use crate::cdf53f::Cdf53;
use crate::cdf53i::Cdf53Integer;
use crate::cdf97f::Cdf97;
use crate::err::OscletError;
use crate::{DwtExecutor, MultiLevelDwtRef};

// The longest slice, in samples, and the most levels of details that document 01 lets pass.
const LIMIT: usize = 16_777_216;
const MOST_LENGTHS: usize = 23;
// No slice of at most LIMIT samples has as many levels. The Rust's multi_dwt makes room for the levels
// asked before it looks at the input, and ends the process where there is none for billions of them.
const TOO_MANY_LEVELS: usize = 32;

// Why a call has no result: a refusal, a case of document 01 alone, or a request of another shape.
enum Stop {
    Refusal(u32, usize, usize),
    NotTheRusts,
    Malformed,
}

impl From<OscletError> for Stop {
    fn from(error: OscletError) -> Stop {
        match error {
            OscletError::MinFilterSize(n, smallest) => Stop::Refusal(1, n, smallest),
            OscletError::ApproxSizeNotMatches(x, y) => Stop::Refusal(2, x, y),
            OscletError::OutputSizeIsNotValid(got, wanted) => Stop::Refusal(3, got, wanted),
            OscletError::BufferWasTooSmallForLevel => Stop::Refusal(4, 0, 0),
            OscletError::ZeroedBaseSize => Stop::Refusal(5, 0, 0),
            other => panic!("document 01 has no number for {other}"),
        }
    }
}

fn refuse_if(wrong: bool, number: u32, first: usize, second: usize) -> Result<(), Stop> {
    if wrong {
        Err(Stop::Refusal(number, first, second))
    } else {
        Ok(())
    }
}

fn not_the_rusts_if(case: bool) -> Result<(), Stop> {
    if case { Err(Stop::NotTheRusts) } else { Ok(()) }
}

// ---- samples

trait Sample: Copy + Default {
    const WIDTH: usize;
    fn read(bytes: &[u8]) -> Self;
    // Its bytes; a NaN is the one quiet and positive NaN without a payload.
    fn write(self) -> impl Iterator<Item = u8>;
}

macro_rules! samples {
    ($($type: ty, $plain: expr;)*) => {
        $(impl Sample for $type {
            const WIDTH: usize = size_of::<$type>();

            fn read(bytes: &[u8]) -> Self {
                <$type>::from_le_bytes(bytes.try_into().unwrap())
            }

            fn write(self) -> impl Iterator<Item = u8> {
                let plain: fn(Self) -> Self = $plain;
                plain(self).to_le_bytes().into_iter()
            }
        })*
    };
}

samples! {
    i8, |x| x;
    i16, |x| x;
    i32, |x| x;
    u32, |x| x;
    f32, |x| if x.is_nan() { f32::from_bits(0x7fc0_0000) } else { x };
    f64, |x| if x.is_nan() { f64::from_bits(0x7ff8_0000_0000_0000) } else { x };
}

// Words: a slice is `x` and lowercase hex.

fn bytes_of(word: &str) -> Result<Vec<u8>, Stop> {
    let nibble = |c: u8| match c {
        b'0'..=b'9' => Ok(c - b'0'),
        b'a'..=b'f' => Ok(c - b'a' + 10),
        _ => Err(Stop::Malformed),
    };
    let (pairs, rest) = word
        .strip_prefix('x')
        .ok_or(Stop::Malformed)?
        .as_bytes()
        .as_chunks::<2>();
    if !rest.is_empty() {
        return Err(Stop::Malformed);
    }
    pairs
        .iter()
        .map(|[high, low]| Ok(nibble(*high)? * 16 + nibble(*low)?))
        .collect()
}

// Samples of a slice. A byte length that is no multiple of the width is document 01's 9, before all else.
fn samples_of<T: Sample>(word: &str) -> Result<Vec<T>, Stop> {
    let bytes = bytes_of(word)?;
    not_the_rusts_if(bytes.len() % T::WIDTH != 0)?;
    Ok(bytes.chunks_exact(T::WIDTH).map(T::read).collect())
}

fn word_of<T: Sample>(samples: &[T]) -> String {
    let mut word = "x".to_string();
    for byte in samples.iter().flat_map(|sample| sample.write()) {
        word.push(b"0123456789abcdef"[byte as usize / 16] as char);
        word.push(b"0123456789abcdef"[byte as usize % 16] as char);
    }
    word
}

fn number<N: std::str::FromStr>(word: &str) -> Result<N, Stop> {
    if word.bytes().all(|c| c.is_ascii_digit()) {
        word.parse().map_err(|_| Stop::Malformed)
    } else {
        Err(Stop::Malformed)
    }
}

// ---- document 02, C-16: a wrong details length is 17, with the details' numbers

// Where the details of a level are wrong and its approximations are right: the two numbers that the Rust says,
// and document 02's. It is told by the lengths of the request alone, never by what the Rust answers.
type WrongDetails = Option<([usize; 2], [usize; 2])>;

fn wrong_details_forward(smallest: usize, n: usize, approx: usize, details: usize) -> WrongDetails {
    (n >= smallest && approx == n.div_ceil(2) && details != n / 2)
        .then_some(([details, n], [details, n]))
}

// Level by level, from the deepest, through the first that is wrong in either band. The least number of details that
// is expected, 1 in 5/3 and 2 in 9/7, is the smallest input less 2.
fn wrong_details_back(smallest: usize, mut approx: usize, levels: &[usize]) -> WrongDetails {
    for &details in levels {
        let n = approx + details;
        let expected = (n.div_ceil(2).max(2), (n / 2).max(smallest - 2));
        if approx != expected.0 {
            return None;
        }
        if details != expected.1 {
            return Some(([expected.0, approx], [expected.1, details]));
        }
        approx = n;
    }
    None
}

// The one place where a refusal of the Rust is changed: its second 2, with its own numbers, becomes 17. Another
// answer there is a panic, so that the comparison tells it. Every other refusal stays.
fn by_document_02<R>(said: Result<R, OscletError>, wrong: WrongDetails) -> Result<R, Stop> {
    let Some((rusts, [first, second])) = wrong else {
        return Ok(said?);
    };
    match said {
        Err(OscletError::ApproxSizeNotMatches(x, y)) if [x, y] == rusts => {
            Err(Stop::Refusal(17, first, second))
        }
        _ => panic!("the details are wrong, and the Rust does not say 2 {rusts:?}"),
    }
}

// ---- the calls, each with the documents' order of checks

// A filter as the driver of all its calls, and the smallest input that it takes.
#[derive(Clone, Copy)]
struct Filter<'a, T> {
    rust: &'a dyn DwtExecutor<T>,
    smallest: usize,
}

// What a done call leaves in its outputs; the work areas after them are the port's alone.
type Outputs = Result<Vec<String>, Stop>;

// The Rust's own checks are document 01's, and document 02's by the change of its second 2.
fn forward<T: Sample>(filter: Filter<T>, [input, approx, details]: [&str; 3]) -> Outputs {
    let (input, mut approx, mut details) = (
        samples_of(input)?,
        samples_of(approx)?,
        samples_of(details)?,
    );
    not_the_rusts_if(input.len() > LIMIT)?;
    let wrong = wrong_details_forward(filter.smallest, input.len(), approx.len(), details.len());
    let said = filter
        .rust
        .execute_forward(&input, &mut approx, &mut details);
    by_document_02(said, wrong)?;
    Ok(vec![word_of(&approx), word_of(&details)])
}

// The same; the Rust's 3 comes before its 2s.
fn inverse<T: Sample>(filter: Filter<T>, [approx, details, output]: [&str; 3]) -> Outputs {
    let (approx, details, mut output) = (
        samples_of(approx)?,
        samples_of(details)?,
        samples_of(output)?,
    );
    not_the_rusts_if(approx.len().max(details.len()).max(output.len()) > LIMIT)?;
    let wrong = if output.len() == approx.len() + details.len() {
        wrong_details_back(filter.smallest, approx.len(), &[details.len()])
    } else {
        None
    };
    let said = filter.rust.execute_inverse(&approx, &details, &mut output);
    by_document_02(said, wrong)?;
    Ok(vec![word_of(&output)])
}

// The Rust's 4, then the documents' 2 and 17 for the lent bands.
fn dwt<T: Sample>(filter: Filter<T>, signal: &str, level: &str, lent: [&str; 4]) -> Outputs {
    let (signal, level) = (samples_of::<T>(signal)?, number::<u32>(level)?);
    let [approx, details, work1, work2] = lengths_of::<T, 4>(lent)?;
    not_the_rusts_if(signal.len() > LIMIT)?;
    let done = filter.rust.dwt(&signal, level as usize)?;
    let last = done.approximations.len() + done.details.len();
    refuse_if(approx != done.approximations.len(), 2, approx, last)?;
    refuse_if(details != done.details.len(), 17, details, last)?;
    not_the_rusts_if(work1.min(work2) < signal.len())?;
    Ok(vec![word_of(&done.approximations), word_of(&done.details)])
}

// The Rust's 1 and 4, then document 01's 3 for the lent output.
fn multi_dwt<T: Sample>(filter: Filter<T>, signal: &str, levels: &str, lent: [&str; 3]) -> Outputs {
    let (signal, levels) = (samples_of::<T>(signal)?, number::<u32>(levels)?);
    let [output, work1, work2] = lengths_of::<T, 3>(lent)?;
    not_the_rusts_if(signal.len() > LIMIT)?;
    let done = filter
        .rust
        .multi_dwt(&signal, (levels as usize).min(TOO_MANY_LEVELS))?
        .levels;
    refuse_if(output != signal.len(), 3, output, signal.len())?;
    not_the_rusts_if(work1.min(work2) < signal.len())?;
    // deepest approximations, then details deepest first
    let mut pyramid = done.last().unwrap().approximations.clone();
    done.iter()
        .rev()
        .for_each(|level| pyramid.extend(&level.details));
    Ok(vec![word_of(&pyramid)])
}

// The Rust's 5, document 01's 9 for the lengths, the Rust's 2s with document 02's change, document 01's 3 for the
// lent output.
fn multi_idwt<T: Sample>(
    filter: Filter<T>,
    approx: &str,
    details: &str,
    lengths: &str,
    lent: [&str; 3],
) -> Outputs {
    let (approx, details) = (samples_of::<T>(approx)?, samples_of::<T>(details)?);
    let (lengths, [output, work1, work2]) =
        (samples_of::<u32>(lengths)?, lengths_of::<T, 3>(lent)?);
    not_the_rusts_if(
        approx.len().max(details.len()).max(output) > LIMIT || lengths.len() > MOST_LENGTHS,
    )?;
    let lengths: Vec<usize> = lengths.iter().map(|&length| length as usize).collect();
    let whole = lengths.iter().sum::<usize>() == details.len();
    not_the_rusts_if(!whole && !lengths.is_empty() && !approx.is_empty())?;
    // cut the details, which come deepest first, and turn them for the Rust
    let mut rest = details.as_slice();
    let cut = |&length: &usize| rest.split_off(..length).unwrap_or_default();
    let deepest_first: Vec<&[T]> = lengths.iter().map(cut).collect();
    let details = deepest_first.into_iter().rev().collect();
    let said = filter.rust.multi_idwt(&MultiLevelDwtRef {
        approximations: &approx,
        details,
    });
    let wrong = wrong_details_back(filter.smallest, approx.len(), &lengths);
    let done = by_document_02(said, wrong)?;
    refuse_if(output != done.len(), 3, output, done.len())?;
    not_the_rusts_if(work1.min(work2) < output)?;
    Ok(vec![word_of(&done)])
}

fn lengths_of<T: Sample, const N: usize>(words: [&str; N]) -> Result<[usize; N], Stop> {
    let mut lengths = [0; N];
    for (length, word) in lengths.iter_mut().zip(words) {
        *length = samples_of::<T>(word)?.len();
    }
    Ok(lengths)
}

// The answer to a call of one filter. A refusal answers its outputs as they came, and no work area is told.
fn call<T: Sample>(filter: Filter<T>, verb: &str, words: &[&str]) -> Result<String, Stop> {
    let (outputs, lent, works): (Outputs, &[&str], usize) = match (verb, words) {
        ("forward", &[_, ref lent @ ..]) => (forward(filter, exactly(words)?), lent, 0),
        ("inverse", &[_, _, ref lent @ ..]) => (inverse(filter, exactly(words)?), lent, 0),
        ("dwt", [signal, level, lent @ ..]) => {
            (dwt(filter, signal, level, exactly(lent)?), &words[2..4], 2)
        }
        ("multi_dwt", [signal, levels, lent @ ..]) => (
            multi_dwt(filter, signal, levels, exactly(lent)?),
            &words[2..3],
            2,
        ),
        ("multi_idwt", [approx, details, lengths, lent @ ..]) => (
            multi_idwt(filter, approx, details, lengths, exactly(lent)?),
            &words[3..4],
            2,
        ),
        _ => return Err(Stop::Malformed),
    };
    let (numbers, after) = match outputs {
        Ok(outputs) => ("0 0 0".to_string(), outputs.join(" ")),
        Err(Stop::Refusal(number, first, second)) => {
            (format!("{number} {first} {second}"), lent.join(" "))
        }
        Err(other) => return Err(other),
    };
    Ok(format!("{numbers} {after}{}", " -".repeat(works)))
}

fn exactly<'a, const N: usize>(words: &[&'a str]) -> Result<[&'a str; N], Stop> {
    words.try_into().map_err(|_| Stop::Malformed)
}

// The most levels at which dwt succeeds on n zeros: where it does, it does with fewer.
fn depth<T: Sample>(filter: Filter<T>, words: &[&str]) -> Result<String, Stop> {
    let [n] = exactly(words)?;
    let n: u64 = number(n)?;
    if n > LIMIT as u64 {
        return Ok("6 0 0".to_string());
    }
    let zeros = vec![T::default(); n as usize];
    let levels: Vec<usize> = (1..TOO_MANY_LEVELS).collect();
    let depth = levels.partition_point(|&level| filter.rust.dwt(&zeros, level).is_ok());
    Ok(format!("0 {depth} 0"))
}

// ---- a request

fn cdf53<T>(rust: &dyn DwtExecutor<T>) -> Filter<'_, T> {
    Filter { rust, smallest: 3 }
}

fn cdf97<T>(rust: &dyn DwtExecutor<T>) -> Filter<'_, T> {
    Filter { rust, smallest: 4 }
}

pub fn answer(request: &str) -> String {
    let words: Vec<&str> = request.split(' ').collect();
    let (name, words) = (words[0], &words[1..]);
    let asked = match name {
        "cdf53_depth" => depth(cdf53(&Cdf53Integer::<i8, i32>::default()), words),
        "cdf97_depth" => depth(cdf97(&Cdf97::<f32>::default()), words),
        _ => match taken_apart(name) {
            Some(("cdf53", verb, "i8")) => {
                call::<i8>(cdf53(&Cdf53Integer::<i8, i32>::default()), verb, words)
            }
            Some(("cdf53", verb, "i16")) => {
                call::<i16>(cdf53(&Cdf53Integer::<i16, i32>::default()), verb, words)
            }
            Some(("cdf53", verb, "i32")) => {
                call::<i32>(cdf53(&Cdf53Integer::<i32, i64>::default()), verb, words)
            }
            Some(("cdf53", verb, "f32")) => call::<f32>(cdf53(&Cdf53::default()), verb, words),
            Some(("cdf53", verb, "f64")) => call::<f64>(cdf53(&Cdf53::default()), verb, words),
            Some(("cdf97", verb, "f32")) => call::<f32>(cdf97(&Cdf97::default()), verb, words),
            Some(("cdf97", verb, "f64")) => call::<f64>(cdf97(&Cdf97::default()), verb, words),
            _ => return format!("unknown {name}"),
        },
    };
    match asked {
        Ok(answer) => answer,
        Err(Stop::NotTheRusts) => "-".to_string(),
        _ => format!("malformed {name}"),
    }
}

// FILTER_VERB_TYPE
fn taken_apart(name: &str) -> Option<(&str, &str, &str)> {
    let (filter, rest) = name.split_once('_')?;
    let (verb, sample) = rest.rsplit_once('_')?;
    ["forward", "inverse", "dwt", "multi_dwt", "multi_idwt"]
        .contains(&verb)
        .then_some((filter, verb, sample))
}
