//! Document 000 as a judge: seeds for run files, made inputs, and a fixed list of its answers.

use std::{
    env,
    io::{self, Write},
    path::PathBuf,
    process::ExitCode,
};

mod big;
mod bits;
mod cases;
mod check;
mod jacobi;
mod make;
mod rng;
mod runfile;
mod solve;
mod stream;
mod wide;

const HELP: &str = "\
oracle: answers of document 000 (bhtsne's spectral.rs), compiled unchanged

  oracle run < FILE         the seed of a run file: one row= line a row
  oracle counts < FILE      passes, refreshed, zeroed, isolated of that run
  oracle conditions < FILE  twice, nan, falls, empty, nan_last, each 0 or 1
  oracle rounds < FILE      each round's bound and Ritz values
  oracle make LABEL         a run file made from a number, or a named one
  oracle case LABEL         that file with conditions, counts and seed, as stored
  oracle big N NUMBER D ROUNDS DEGREE
                            digest and some rows of the seed of a graph of N rows
  oracle jacobi             matrices and what the Jacobi solver makes of them
  oracle list runs|big|families|matrices
                            what the stored lists hold, one a line
  oracle check [FOLDER]     repeats the stored vectors and compares
  oracle stream FROM COUNT  graphs and answers as bytes, for oracle/compare
  oracle --help             this text

Floats are 16 lower-case hex digits of their bits, a NaN always 7ff8000000000000.
Exit: 0 done, 1 something differs, 2 not understood or not a good run file.
";

/// What to print, and whether a comparison failed.
struct Outcome {
    text: String,
    differs: bool,
}

fn main() -> ExitCode {
    let args: Vec<String> = env::args_os().skip(1).map(|a| a.to_string_lossy().into_owned()).collect();
    let words: Vec<&str> = args.iter().map(String::as_str).collect();
    match command(&words) {
        Ok(outcome) => finish(&outcome),
        Err(fault) => {
            eprintln!("oracle: {fault}");
            ExitCode::from(2)
        }
    }
}

fn command(words: &[&str]) -> Result<Outcome, String> {
    if let ["check", rest @ ..] = words {
        let (text, good) = check::check(&vectors(rest)?)?;
        return Ok(Outcome { text, differs: !good });
    }
    if let ["stream", rest @ ..] = words {
        streamed(rest)?;
        return Ok(Outcome { text: String::new(), differs: false });
    }
    Ok(Outcome { text: text(words)?, differs: false })
}

fn text(words: &[&str]) -> Result<String, String> {
    match words {
        ["--help" | "-h" | "help"] => Ok(HELP.to_owned()),
        ["run"] => {
            let request = runfile::read(io::stdin())?;
            Ok(bits::rows(&judge::seed(&request)?, request.d))
        }
        ["counts"] => Ok(lines(&solved()?.counts.words())),
        ["conditions"] => Ok(lines(&solved()?.conditions.words())),
        ["rounds"] => Ok(lines(&solved()?.rounds())),
        ["make", label] => Ok(runfile::print(&cases::request(label)?)),
        ["case", label] => cases::block(label),
        ["big", rest @ ..] => big::answer(big_args(rest)?),
        ["jacobi"] => Ok(jacobi::list()),
        ["list", "runs"] => Ok(lines(&cases::labels())),
        ["list", "big"] => Ok(lines(&cases::BIG.map(|args| args.map(|x| x.to_string()).join(" ")))),
        ["list", "families"] => Ok(lines(&make::families().map(str::to_owned))),
        ["list", "matrices"] => Ok(lines(&jacobi::KINDS.map(|(kind, _)| kind.to_owned()))),
        [] => Err("no command; see oracle --help".to_owned()),
        [first, ..] => Err(format!("{first}: unknown, or not its arguments; see oracle --help")),
    }
}

fn solved() -> Result<solve::Answer, String> {
    solve::solve(&runfile::read(io::stdin())?)
}

fn lines(words: &[String]) -> String {
    words.iter().map(|word| format!("{word}\n")).collect()
}

fn big_args(words: &[&str]) -> Result<[u64; 5], String> {
    numbers(words)?.try_into().map_err(|_| "big takes N NUMBER D ROUNDS DEGREE".to_owned())
}

fn numbers(words: &[&str]) -> Result<Vec<u64>, String> {
    words
        .iter()
        .map(|word| word.parse().map_err(|_| format!("{word:?} is not a number below 2^64")))
        .collect()
}

/// On one thread: the reader at the other end of the pipe has the other core.
fn streamed(words: &[&str]) -> Result<(), String> {
    let [from, count] = numbers(words)?.try_into().map_err(|_| "stream takes FROM COUNT".to_owned())?;
    judge::on_threads(1, || stream::write(from, count, io::stdout()))?
}

/// The stored vectors stand beside this crate unless another folder is named.
fn vectors(rest: &[&str]) -> Result<PathBuf, String> {
    match rest {
        [] => Ok(PathBuf::from(concat!(env!("CARGO_MANIFEST_DIR"), "/../vectors"))),
        [folder] => Ok(PathBuf::from(folder)),
        _ => Err("check takes one folder at most".to_owned()),
    }
}

/// A reader that stops early is no fault of ours to panic over.
fn finish(outcome: &Outcome) -> ExitCode {
    let mut out = io::stdout().lock();
    match out.write_all(outcome.text.as_bytes()).and_then(|()| out.flush()) {
        Err(fault) if fault.kind() != io::ErrorKind::BrokenPipe => {
            eprintln!("oracle: standard output: {fault}");
            ExitCode::from(2)
        }
        _ => ExitCode::from(u8::from(outcome.differs)),
    }
}
