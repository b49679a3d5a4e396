//! The example in FORMAT.md: its bytes give its answers.

use driver::compare::{compare, model_answers, Lines, Tally};
use driver::engine::Wrong;
use driver::script::{decode, encode};

/// The indented lines after a heading, up to the next plain line that follows them.
fn blocks() -> Vec<Vec<String>> {
    let text = include_str!("../../FORMAT.md");
    let example = text.split("## Example").nth(1).expect("an example");
    let mut blocks: Vec<Vec<String>> = vec![];
    let mut inside = false;
    for line in example.lines() {
        match line.strip_prefix("    ") {
            Some(l) => {
                if !inside {
                    blocks.push(vec![]);
                }
                inside = true;
                blocks.last_mut().unwrap().push(l.to_string());
            }
            None => inside = false,
        }
    }
    blocks
}

fn example_bytes() -> Vec<u8> {
    let hex: String = blocks()[0].concat().split_whitespace().collect();
    (0..hex.len() / 2)
        .map(|i| u8::from_str_radix(&hex[2 * i..2 * i + 2], 16).unwrap())
        .collect()
}

#[test]
fn example_gives_its_answers() {
    let scripts = decode(&example_bytes());
    assert_eq!(scripts.len(), 1);
    let mut right = blocks()[1].join("\n");
    right.push('\n');
    assert_eq!(model_answers(&scripts[0], Wrong::Nothing), right);
    let mut tally = Tally::new();
    let (outcome, fixed) = compare(&scripts[0], &mut Lines::new(&right), &mut tally);
    assert!(outcome.is_ok() && fixed, "{:?}", outcome);
    assert_eq!((tally.windows, tally.events[5], tally.pipeline_windows), (1, 1, 1));
}

#[test]
fn bytes_and_commands_agree() {
    let mut again = vec![];
    for s in decode(&example_bytes()) {
        encode(&s, &mut again);
    }
    assert_eq!(again, example_bytes());
}
