//! Answers for the original, as a process of its own: reads what is asked from its input, one after the other, and
//! writes each answer to its output, until there is no more.
use original::ask::{write_list, Ask};
use std::io::{stdin, stdout, BufReader, BufWriter, Result};

fn main() -> Result<()> {
    let mut from = BufReader::new(stdin());
    let mut to = BufWriter::new(stdout());
    while let Some(ask) = Ask::read(&mut from)? {
        write_list(&mut to, &ask.answer())?;
    }
    Ok(())
}
