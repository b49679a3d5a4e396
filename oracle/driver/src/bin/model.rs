//! Answers scripts as `replay` does, by the model of document 01. `--wrong NAME` makes one mistake on purpose.

use driver::engine::{answer, end_lines, Engine, Wrong, WRONGS};
use driver::script::decode;
use std::io::{Read, Write};

fn main() {
    let args: Vec<String> = std::env::args().skip(1).collect();
    let wrong = match args.iter().map(String::as_str).collect::<Vec<_>>()[..] {
        [] => Wrong::Nothing,
        ["--wrong", name] => match WRONGS.iter().find(|w| w.0 == name) {
            Some(w) => w.1,
            None => fail(),
        },
        _ => fail(),
    };
    let mut bytes = Vec::new();
    std::io::stdin().read_to_end(&mut bytes).expect("standard input");
    let mut out = std::io::BufWriter::new(std::io::stdout().lock());
    for script in decode(&bytes) {
        let mut engine = Engine::new(wrong);
        let mut lines = Vec::new();
        for c in &script {
            answer(&mut engine, c, &mut lines);
        }
        end_lines(&engine, &mut lines);
        for line in lines {
            writeln!(out, "{}", line).expect("standard output");
        }
    }
}

fn fail() -> ! {
    let names: Vec<&str> = WRONGS.iter().map(|w| w.0).collect();
    eprintln!("model [--wrong NAME], NAME one of: {}", names.join(" "));
    std::process::exit(2)
}
