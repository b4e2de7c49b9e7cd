//! Replays the trace of a file, and prints the report, or `Error: ` and the line of the refusal: replay_a_trace TRACE
use std::error::Error;

fn main() -> Result<(), Box<dyn Error>> {
    let file = std::env::args().nth(1).ok_or("a file is wanted")?;
    let report = paldwosk::replay(&std::fs::read(file)?)?;
    print!("{report}");
    Ok(())
}
