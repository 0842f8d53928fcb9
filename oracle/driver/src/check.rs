//! Repeats every stored vector and tells what differs.

use std::{fmt::Write, fs, path::Path};

use crate::{big, bits, cases, jacobi, runfile};

/// What one file's repeat showed.
#[derive(Default)]
struct Tally {
    same: usize,
    differ: Vec<String>,
}

impl Tally {
    fn add(&mut self, name: &str, result: Result<(), String>) {
        match result {
            Ok(()) => self.same += 1,
            Err(what) => self.differ.push(format!("{name}: {what}")),
        }
    }

    fn report(&self, file: &str) -> String {
        let mut text = format!("{file}: {} the same, {} differ\n", self.same, self.differ.len());
        for line in &self.differ {
            let _ = writeln!(text, "  {line}");
        }
        text
    }
}

/// The report, and whether nothing differs.
pub fn check(folder: &Path) -> Result<(String, bool), String> {
    let read = |name: &str| {
        let path = folder.join(name);
        fs::read_to_string(&path).map_err(|fault| format!("{}: {fault}", path.display()))
    };
    let (runs, big, jacobi) = (read("runs.txt")?, read("big.txt")?, read("jacobi.txt")?);
    let tallies = [
        ("runs.txt", check_runs(&runs)),
        ("big.txt", check_big(&big)),
        ("jacobi.txt", check_jacobi(&jacobi)),
    ];
    let report: String = tallies.iter().map(|(file, tally)| tally.report(file)).collect();
    let good = tallies.iter().all(|(_, tally)| tally.differ.is_empty());
    Ok((report + &condition_counts(&runs), good))
}

/// Blocks end with a blank line, the last one too.
fn blocks(text: &str) -> Vec<&str> {
    text.split_inclusive("\n\n").collect()
}

/// A list cut short must not pass, so the labels are compared with the ones that the list should have.
fn check_labels(tally: &mut Tally, stored: &[String], expected: &[String]) {
    if stored != expected {
        let at = stored.iter().zip(expected).take_while(|(a, b)| a == b).count();
        let (had, due) = (stored.len(), expected.len());
        tally.differ.push(format!("the list: {had} stored, {due} expected, other from place {at} on"));
    }
}

fn check_runs(text: &str) -> Tally {
    let mut tally = Tally::default();
    let label = |block: &str| block.split(' ').nth(1).unwrap_or("").to_owned();
    let stored: Vec<String> = blocks(text).into_iter().map(label).collect();
    check_labels(&mut tally, &stored, &cases::labels());
    for block in blocks(text) {
        let label = label(block);
        tally.add(&format!("case {label}"), check_run(&label, block));
    }
    tally
}

/// The stored file is run as it stands; that the rule still makes it is a comparison of its own.
fn check_run(label: &str, block: &str) -> Result<(), String> {
    let lines: Vec<&str> = block.split_inclusive('\n').collect();
    if lines.len() < 9 {
        return Err("cut short".to_owned());
    }
    let file = lines[1..8].concat();
    if runfile::print(&cases::request(label)?) != file {
        return Err("`make` gives another run file".to_owned());
    }
    let request = runfile::parse(file.as_bytes())?;
    let again = cases::block_of(label, &request)? + "\n";
    same_lines(block, &again)?;
    let alone = judge::on_threads(1, || judge::seed(&request))??;
    let rows = bits::rows(&alone, request.d) + "\n";
    if !block.ends_with(&rows) {
        return Err("one thread gives other bits than the default number".to_owned());
    }
    Ok(())
}

fn same_lines(stored: &str, again: &str) -> Result<(), String> {
    if stored == again {
        return Ok(());
    }
    let same = stored.lines().zip(again.lines()).take_while(|(a, b)| a == b).count();
    Err(format!("differs from line {} of its block", same + 1))
}

fn check_big(text: &str) -> Tally {
    let mut tally = Tally::default();
    let head = |block: &str| block.lines().next().unwrap_or("").to_owned();
    let stored: Vec<String> = blocks(text).into_iter().map(head).collect();
    let expected: Vec<String> =
        cases::BIG.iter().map(|args| format!("big {}", args.map(|x| x.to_string()).join(" "))).collect();
    check_labels(&mut tally, &stored, &expected);
    for block in blocks(text) {
        tally.add(&head(block), check_big_block(block));
    }
    tally
}

fn check_big_block(block: &str) -> Result<(), String> {
    let args = parse_big(block.lines().next().unwrap_or("")).ok_or("no parameters")?;
    same_lines(block, &(big::answer(args)? + "\n"))?;
    let alone = judge::on_threads(1, || big::request(args).and_then(|r| judge::seed(&r)))??;
    let digest = format!("digest={:016x}", bits::digest(&alone));
    match block.lines().any(|line| line == digest) {
        true => Ok(()),
        false => Err("one thread gives other bits than the default number".to_owned()),
    }
}

fn parse_big(head: &str) -> Option<[u64; 5]> {
    let numbers: Option<Vec<u64>> =
        head.strip_prefix("big ")?.split(' ').map(|word| word.parse().ok()).collect();
    numbers?.try_into().ok()
}

fn check_jacobi(text: &str) -> Tally {
    let mut tally = Tally::default();
    let expected: Vec<String> = jacobi::list().lines().map(str::to_owned).collect();
    let stored: Vec<String> = text.lines().map(str::to_owned).collect();
    check_labels(&mut tally, &stored, &expected);
    for (i, line) in stored.iter().enumerate() {
        let again = jacobi::read(line).map(|matrix| jacobi::line(&matrix));
        let result = match again {
            Some(again) if again.trim_end() == line => Ok(()),
            Some(_) => Err("the solver gives other bits".to_owned()),
            None => Err("not a matrix line".to_owned()),
        };
        tally.add(&format!("matrix {}", i + 1), result);
    }
    tally
}

/// How many stored cases meet each condition, as the README of the vectors states them.
fn condition_counts(runs: &str) -> String {
    let heads: Vec<&str> = runs.lines().filter(|line| line.starts_with("case ")).collect();
    let having = |words: &[&str]| {
        heads.iter().filter(|head| words.iter().all(|w| head.split(' ').any(|h| h == *w))).count()
    };
    let mut text = format!("conditions over {} cases:\n", heads.len());
    for name in ["twice", "nan", "nan_last", "falls", "empty"] {
        let _ = writeln!(text, "  {name}=1: {}", having(&[&format!("{name}=1")]));
    }
    let comparable = ["twice=0", "nan=0", "falls=1"];
    let _ = writeln!(text, "  twice=0 nan=0 falls=1: {}", having(&comparable));
    let _ = writeln!(
        text,
        "  twice=0 nan=0 falls=1 empty=0: {}",
        having(&[&comparable[..], &["empty=0"]].concat())
    );
    text
}

#[cfg(test)]
mod tests {
    use super::*;

    fn good() -> String {
        cases::block("0").unwrap() + "\n"
    }

    #[test]
    fn a_stored_block_repeats() {
        assert_eq!(check_run("0", &good()), Ok(()));
    }

    #[test]
    fn a_changed_bit_is_found_wherever_it_stands() {
        let good = good();
        for (at, digit) in good.char_indices().filter(|(_, c)| c.is_ascii_digit()) {
            let other = if digit == '1' { "2" } else { "1" };
            let mut bad = good.clone();
            bad.replace_range(at..at + 1, other);
            let label = bad.split(' ').nth(1).unwrap().to_owned();
            assert!(check_run(&label, &bad).is_err(), "at {at}");
        }
    }

    #[test]
    fn a_list_cut_short_does_not_pass() {
        assert!(!check_runs(&good()).differ.is_empty());
        assert!(!check_big("").differ.is_empty());
        assert!(!check_jacobi("").differ.is_empty());
    }

    #[test]
    fn a_changed_matrix_is_found() {
        let list = jacobi::list();
        assert!(check_jacobi(&list).differ.is_empty());
        let at = list.find("vec=").unwrap() + 4;
        let mut bad = list.clone();
        bad.replace_range(at..at + 1, if &list[at..at + 1] == "3" { "b" } else { "3" });
        assert_eq!(check_jacobi(&bad).differ.len(), 2);
    }
}
