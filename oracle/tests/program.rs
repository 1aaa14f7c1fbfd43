//! The report program itself, as `./report` builds it, on cards in examples/, the longest card, longer inputs and
//! random cards. Where it is not built, the test fails.

use oracle::card::{LONGEST_CARD, LONGEST_REPORT, report};
use oracle::generate::Rng;
use oracle::generate::card::{longest, overlong, random, worked};
use std::fs;
use std::io::{ErrorKind, Write};
use std::path::PathBuf;
use std::process::{Command, Stdio};

fn root() -> PathBuf {
    PathBuf::from(env!("CARGO_MANIFEST_DIR")).join("..")
}

fn program() -> PathBuf {
    root().join("crates/report/out/report")
}

/// What the program writes for these bytes.
fn run(bytes: &[u8]) -> Vec<u8> {
    let mut child = Command::new(program())
        .stdin(Stdio::piped())
        .stdout(Stdio::piped())
        .spawn()
        .expect("the program runs");
    let mut input = child.stdin.take().expect("its input");
    if let Err(e) = input.write_all(bytes) {
        // of a longer input it reads 10,500 bytes
        assert_eq!(e.kind(), ErrorKind::BrokenPipe);
    }
    drop(input);
    let output = child.wait_with_output().expect("its output");
    assert!(output.status.success());
    output.stdout
}

fn holds(bytes: &[u8]) {
    let (ours, rust) = (run(bytes), report(bytes));
    assert_eq!(ours, rust, "{:?}", String::from_utf8_lossy(bytes));
}

#[test]
fn the_program_prints_what_the_oracle_does() {
    assert!(
        program().exists(),
        "not built: ./report < examples/worked.card builds it"
    );
    for entry in fs::read_dir(root().join("examples")).expect("examples") {
        holds(&fs::read(entry.expect("an example").path()).expect("a card"));
    }
    let card = longest().bytes();
    assert_eq!(
        (card.len(), run(&card).len()),
        (LONGEST_CARD, LONGEST_REPORT)
    );
    holds(&[&card[..], b"\n"].concat());
    holds(&[&card[..], &[b' '; 200_000]].concat());
    holds(&card[..card.len() - 1]);
    holds(&[]);
    overlong(&mut |bytes| holds(bytes));
    let mut long = worked().bytes();
    long.resize(300_000, 0);
    holds(&long);
    let rng = &mut Rng::new(1);
    for i in 0..300 {
        holds(&random(rng, 1 + i % 32, i % 200));
    }
}
