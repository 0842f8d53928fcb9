//! The program as a user meets it: exit codes, messages, and that bad input never panics.

use std::{
    io::Write,
    process::{Command, Output, Stdio},
};

fn oracle(args: &[&str], input: &[u8]) -> Output {
    let mut child = Command::new(env!("CARGO_BIN_EXE_oracle"))
        .args(args)
        .stdin(Stdio::piped())
        .stdout(Stdio::piped())
        .stderr(Stdio::piped())
        .spawn()
        .expect("the program starts");
    // A program that refuses early may close its input before all of it is written.
    let _ = child.stdin.take().expect("piped").write_all(input);
    child.wait_with_output().expect("the program ends")
}

fn printed(args: &[&str], input: &[u8]) -> String {
    let out = oracle(args, input);
    assert!(out.status.success(), "{args:?}: {}", String::from_utf8_lossy(&out.stderr));
    String::from_utf8(out.stdout).expect("text")
}

#[test]
fn documents_sample_and_case_11_give_documents_rows_and_counts() {
    let sample = printed(&["make", "sample"], b"");
    assert_eq!(
        sample,
        "d=1\nrounds=1\ndegree=1\nseed_std=3f1a36e2eb1c432d\nstarts=0,1\ncolumns=0\nvalues=3ff0000000000000\n"
    );
    assert_eq!(printed(&["run"], sample.as_bytes()), "row=0000000000000000\n");
    assert_eq!(printed(&["counts"], sample.as_bytes()), "passes=2\nrefreshed=9\nzeroed=9\nisolated=0\n");
    let case = printed(&["make", "case11"], b"");
    assert_eq!(printed(&["counts"], case.as_bytes()), "passes=2\nrefreshed=8\nzeroed=8\nisolated=1\n");
}

/// Rows of 1 and -1, of nothing, of -1, and of 1: only the last is not isolated.
#[test]
fn rows_with_entries_are_isolated_too() {
    let file = "d=1\nrounds=1\ndegree=1\nseed_std=3f1a36e2eb1c432d\nstarts=0,2,2,3,4\ncolumns=0,1,2,3\n\
        values=3ff0000000000000,bff0000000000000,bff0000000000000,3ff0000000000000\n";
    assert!(printed(&["counts"], file.as_bytes()).ends_with("\nisolated=3\n"));
}

#[test]
fn conditions_come_in_their_order() {
    let file = printed(&["make", "10"], b"");
    assert_eq!(printed(&["conditions"], file.as_bytes()), "twice=1\nnan=0\nfalls=1\nempty=0\nnan_last=0\n");
}

#[test]
fn a_stream_names_its_graphs_and_ends() {
    let out = oracle(&["stream", "3", "2"], b"");
    assert!(out.status.success());
    let head: Vec<u8> = [*b"TCSTREAM", 3u64.to_le_bytes(), 2u64.to_le_bytes(), *b"TCGRAPH2"].concat();
    assert!(out.stdout.starts_with(&head));
    assert!(out.stdout.ends_with(&[*b"TCENDING", 2u64.to_le_bytes()].concat()));
}

#[test]
fn bad_run_files_are_refused_with_a_message() {
    let good = printed(&["make", "1"], b"");
    let bad: [Vec<u8>; 6] = [
        b"".to_vec(),
        b"d=1\n".to_vec(),
        good.replacen("d=1", "d=8", 1).into_bytes(),
        good.replacen("rounds=", "rounds=0", 1).into_bytes(),
        vec![0xff; 40_000],
        [good.as_bytes(), b"\n"].concat(),
    ];
    for file in bad {
        for command in ["run", "counts", "conditions", "rounds"] {
            let out = oracle(&[command], &file);
            let told = String::from_utf8_lossy(&out.stderr).into_owned();
            assert_eq!(out.status.code(), Some(2), "{told}");
            assert!(told.starts_with("oracle: ") && !told.contains("panicked"), "{told}");
            assert!(out.stdout.is_empty());
        }
    }
}

#[test]
fn bad_commands_are_refused_with_a_message() {
    let bad: [&[&str]; 12] = [
        &[],
        &["walk"],
        &["run", "file"],
        &["make"],
        &["make", "18446744073709551616"],
        &["big", "4096"],
        &["big", "8", "1", "1", "1", "1"],
        &["big", "4096", "1", "x", "1", "1"],
        &["check", "no-such-folder"],
        &["stream"],
        &["stream", "0"],
        &["stream", "0", "x"],
    ];
    for args in bad {
        let out = oracle(args, b"");
        assert_eq!(out.status.code(), Some(2), "{args:?}");
        assert!(String::from_utf8_lossy(&out.stderr).starts_with("oracle: "));
    }
    assert!(printed(&["--help"], b"").contains("oracle run < FILE"));
}
