//! What the second program writes: the expected lines of the programs in Rattle, and the table of
//! cases that they run.

use std::io::{self, Read, Write};
use std::process::ExitCode;

use peer::expected::{case_groups, case_lines, case_table};
use peer::list::MOST_READ;
use peer::vectors::vectors;

const USAGE: &str = "usage: peer WORD
  cases        the expected lines of the generated cases
  case-table   the rows of the generated cases (cases.txt)
  case-groups  what the cases are about, with their numbers
  vectors      the expected lines of the hash and the cipher's block
  list         the listing of the message on standard input
";

fn listing() -> io::Result<String> {
    let mut message = Vec::new();
    io::stdin().lock().take(MOST_READ as u64).read_to_end(&mut message)?;
    Ok(peer::list(&message))
}

fn text_of(word: Option<&str>) -> io::Result<Option<String>> {
    Ok(match word {
        Some("cases") => Some(case_lines()),
        Some("case-table") => Some(case_table()),
        Some("case-groups") => Some(case_groups()),
        Some("vectors") => Some(vectors()),
        Some("list") => Some(listing()?),
        _ => None,
    })
}

fn main() -> io::Result<ExitCode> {
    let words: Vec<String> = std::env::args().skip(1).collect();
    let word = if words.len() == 1 { Some(words[0].as_str()) } else { None };
    match text_of(word)? {
        Some(text) => {
            io::stdout().lock().write_all(text.as_bytes())?;
            Ok(ExitCode::SUCCESS)
        }
        None => {
            io::stderr().lock().write_all(USAGE.as_bytes())?;
            Ok(ExitCode::from(2))
        }
    }
}
