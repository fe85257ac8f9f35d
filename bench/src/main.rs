//! Measures the proved layer beside peer, beside peer over OpenSSL and beside a plain C hash. `bench/run`
//! builds and runs this; it writes one Markdown file a section of docs/PERFORMANCE.md, and the plot, into a
//! folder.

mod contestants;
mod instructions;
mod plot;
mod results;
mod tables;
mod timing;
mod work;

use std::path::Path;
use std::{env, fs};

use results::Results;

fn write(folder: &str, name: &str, text: &str) {
    let path = Path::new(folder).join(name);
    fs::write(&path, text).unwrap_or_else(|error| panic!("{}: {error}", path.display()));
}

fn main() {
    let words: Vec<String> = env::args().skip(1).collect();
    match words.iter().map(String::as_str).collect::<Vec<_>>()[..] {
        ["measure", folder, seconds] => {
            let results = Results::measured(seconds.parse().expect("a number of seconds"));
            for (name, text) in tables::sections(&results) {
                write(folder, name, &text);
            }
            write(folder, "performance.svg", &plot::svg(&results));
        }
        // Run under callgrind, which writes one dump a call.
        ["call-each-once"] => instructions::call_each_once(),
        // Reads those dumps.
        ["instructions", folder, dumps] => write(folder, "instructions", &instructions::table(dumps)),
        _ => {
            eprintln!("usage: bench measure FOLDER SECONDS | call-each-once | instructions FOLDER DUMPS");
            std::process::exit(2);
        }
    }
}
