// The Rust beside the port: osclet's three lifting modules, unchanged, answering the desk's request lines.
// Call: tests/oracle/build once, then target/tests/oracle <requests; the lines are those of tests/desk/desk.c.
// What a request means is in requests.rs.

include!("osclet.rs");

use std::io::{BufRead, Write};
use std::panic::catch_unwind;

mod requests;

fn main() -> std::io::Result<()> {
    let (mut input, mut output) = (std::io::stdin().lock(), std::io::stdout().lock());
    let mut line = String::new();
    while input.read_line(&mut line)? > 0 {
        let request = line.trim_end_matches('\n');
        if !request.is_empty() && !request.starts_with('#') {
            let answer = catch_unwind(|| requests::answer(request));
            writeln!(output, "{}", answer.unwrap_or("panic".to_string()))?;
            output.flush()?;
        }
        line.clear();
    }
    Ok(())
}
