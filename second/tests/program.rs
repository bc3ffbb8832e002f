//! The program as it is run: its forms, what it prints, and how it exits.

use std::io::Write;
use std::process::{Command, Stdio};

/// Standard output and success of a run with these words and this input.
fn run(words: &[&str], input: &[u8]) -> (String, bool) {
    let mut command = Command::new(env!("CARGO_BIN_EXE_second"));
    command
        .args(words)
        .stdin(Stdio::piped())
        .stdout(Stdio::piped());
    let mut child = command.stderr(Stdio::null()).spawn().unwrap();
    child.stdin.take().unwrap().write_all(input).unwrap();
    let output = child.wait_with_output().unwrap();
    (
        String::from_utf8(output.stdout).unwrap(),
        output.status.success(),
    )
}

#[test]
fn sheets_and_calls() {
    let sheet = b"RSH\x01\x00\x08\x02\x01\x00\x90\x00\x01\x00\x00\x00\x00\x00";
    let rows = ("ROW 0 0040 c 0048 c\n".to_string(), true);
    assert_eq!(run(&["sheet"], sheet), rows);
    let refusal = ("NO 10 0\n".to_string(), true);
    assert_eq!(run(&["sheet"], b""), refusal);
    let answers = ("0 0 48\nbad line\n0 0 0\n".to_string(), true);
    let calls = b"add 8 2 40 40\nwhat\nmul 8 2 0 0\n";
    assert_eq!(run(&["calls"], calls), answers);
}

#[test]
fn figures_and_vectors() {
    let (text, good) = run(&["figures"], b"");
    assert!(good && text.lines().count() == 12);
    assert!(text.starts_with("A | 40 + 40 | 48\n"));
    assert!(text.ends_with("L | [40,40] / (00,40] | 40 closed to 80 open\n"));
    let data = concat!(env!("CARGO_MANIFEST_DIR"), "/tests/data/ranges-001-002.txt");
    assert_eq!(
        run(&["vectors", data], b""),
        ("59 agreed\n".to_string(), true)
    );
    assert!(!run(&["vectors", "no such file"], b"").1);
}

#[test]
fn values_and_digests() {
    let values = "0\n1\n4\n16\nNaR\n-16\n-4\n-1\n";
    assert_eq!(run(&["values", "3", "1"], b""), (values.to_string(), true));
    // m = 2: NaR counts 2^5 and every other value counts 2^4 more than it is.
    let numbers = [16u128, 17, 20, 32, 32, 0, 12, 15];
    let digest = numbers
        .iter()
        .fold(0, |h, c| (h * 1_000_003 + c) % ((1 << 61) - 1));
    assert_eq!(
        run(&["digest", "3", "1"], b""),
        (format!("{digest}\n"), true)
    );
    let (text, good) = run(&["values", "17", "2"], b"");
    assert!(good && text.lines().count() == 1 << 17);
    for words in [
        ["values", "2", "0"],
        ["values", "18", "0"],
        ["digest", "8", "3"],
    ] {
        assert_eq!(run(&words, b""), (String::new(), false));
    }
}

#[test]
fn digests_of_operations() {
    let (text, good) = run(&["opdigest", "3", "1", "2"], b"");
    let mut h = 0u128;
    for left in 0..8 {
        for right in 0..8 {
            let answer = second::posit::multiply(3, 1, left, right).value;
            h = (h * 1_000_003 + u128::from(answer)) % ((1 << 61) - 1);
        }
    }
    assert_eq!((text, good), (format!("{h}\n"), true));
    assert!(!run(&["opdigest", "3", "1", "4"], b"").1);
    assert!(!run(&["opdigest", "17", "1", "0"], b"").1);
    assert!(!run(&["rounds"], b"").1);
    assert!(!run(&[], b"").1);
}
