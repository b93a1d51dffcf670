//! The random sessions of `random_calls.rs` call each public function of the crate: by its type, so that another type's function of the
//! same name does not count.

use std::fs::{read_dir, read_to_string};
use std::path::Path;

/// What a method of a type is called on in the sessions. A builder is also what its own methods return.
const RECEIVERS: [(&str, &[&str]); 10] = [
    ("IceAgent", &["agent", "self.agents[side]"]),
    ("IceConnectionState", &["agent.state()"]),
    ("Candidate", &["c", "named"]),
    ("CandidatePair", &["pair"]),
    ("SessionLog", &["self.logs[side]"]),
    ("RejectionCounts", &["self.rejected"]),
    ("StunMessage", &["m"]),
    ("StunTiming", &["timing", "StunTiming::default()"]),
    ("Builder", &["new()", "method", "builder", ")"]),
    ("CandidateBuilder", &["builder", ")"]),
];

/// The names by which the sessions call a type, if it has two.
fn names_of(of: &str) -> [&str; 2] {
    if of == "Builder" { [of, "StunMessageBuilder"] } else { [of, of] }
}

/// The type of an `impl` block, by its first line.
fn type_of(line: &str) -> Option<&str> {
    let rest = line.strip_prefix("impl")?;
    let rest = match rest.strip_prefix('<') {
        Some(generics) => generics.split_once("> ")?.1,
        None => rest.trim_start(),
    };
    let name = rest.split_once(" for ").map_or(rest, |(_, name)| name);
    name.split(['<', ' ']).next()
}

/// The public functions of a source, each with its type. One without a type has none.
fn functions(source: &str) -> Vec<(Option<&str>, &str)> {
    let (mut found, mut of) = (Vec::new(), None);
    for line in source.lines() {
        if line.starts_with("impl") {
            of = type_of(line);
        } else if line.starts_with('}') {
            of = None;
        } else if let Some(rest) = line.trim_start().strip_prefix("pub fn ") {
            found.push((of, rest.split(['(', '<']).next().unwrap_or(rest)));
        }
    }
    found
}

fn is_of_a_word(letter: char) -> bool {
    letter.is_alphanumeric() || letter == '_'
}

/// Whether the text has these words, and neither begins nor ends them in the middle of a word or of a path.
fn has(text: &str, words: &str) -> bool {
    text.match_indices(words).any(|(at, _)| {
        let (before, after) = (text[..at].chars().next_back(), text[at + words.len()..].chars().next());
        let begins = words.starts_with(')') || !before.is_some_and(|letter| is_of_a_word(letter) || letter == '.');
        begins && (words.ends_with('(') || !after.is_some_and(is_of_a_word))
    })
}

fn is_called(driver: &str, of: Option<&str>, name: &str) -> bool {
    let Some(of) = of else { return has(driver, &format!("{name}(")) };
    let receivers = RECEIVERS.iter().find(|known| known.0 == of).map_or(&[][..], |known| known.1);
    let is_associated = names_of(of).iter().any(|of| has(driver, &format!("{of}::{name}")));
    is_associated || receivers.iter().any(|receiver| has(driver, &format!("{receiver}.{name}")))
}

#[test]
fn no_function_is_left_out() {
    let folder = Path::new(env!("CARGO_MANIFEST_DIR"));
    let driver: String =
        ["random_calls.rs", "random/looks.rs"].map(|name| read_to_string(folder.join("tests").join(name)).unwrap()).concat();
    let (mut count, mut missing) = (0, Vec::new());
    let files = read_dir(folder.join("src")).unwrap().map(|file| file.unwrap().path());
    for path in files.filter(|path| path.is_file()) {
        let source = read_to_string(path).unwrap();
        let all = functions(&source);
        count += all.len();
        missing.extend(all.iter().filter(|(of, name)| !is_called(&driver, *of, name)).map(|(of, name)| format!("{of:?} {name}")));
    }
    assert!(count > 180 && missing.is_empty(), "{count} functions, of which the sessions do not call {missing:?}");
}
