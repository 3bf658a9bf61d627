//! The listing of standard input, as `teyk list` prints it: `cargo run --release --example listing < FILE`
use std::io::{self, Read, Write};
use teykonasir::run_to_vec;

const LIMIT: usize = 32768;

fn main() -> io::Result<()> {
    let mut text = Vec::new();
    io::stdin().lock().take(LIMIT as u64 + 1).read_to_end(&mut text)?;
    let mut out = io::BufWriter::new(io::stdout().lock());
    if text.len() > LIMIT {
        return writeln!(out, "error TooLong at 0 advances 0");
    }
    let mut records = vec![];
    let ran = run_to_vec(&text, 0, u64::MAX, &mut records);
    for r in &records {
        writeln!(out, "{} {} {}", r.start, r.end, r.kind())?;
    }
    match ran.how {
        Ok(()) => writeln!(out, "end advances {}", ran.advances),
        Err(r) => writeln!(out, "error {} at {} advances {}", r.code.name(), r.place, ran.advances),
    }
}
