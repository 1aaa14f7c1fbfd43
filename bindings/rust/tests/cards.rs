//! The report of a card through `sys`.

mod common;

use common::BEFORE_COUNT;
use tanqesha::sys::{self, REPORT};

const WORKED: &[u8] = include_bytes!("../../../examples/worked.card");

/// The number, what is written, and whether the rest of so much room is kept.
fn report(card: &[u8], room: usize) -> (u32, Option<String>) {
    let mut out = vec![0x7e; room];
    let mut written = BEFORE_COUNT;
    let number = sys::report(card, &mut out, &mut written);
    if number != 0 {
        assert_eq!((written, out), (BEFORE_COUNT, vec![0x7e; room]));
        return (number, None);
    }
    assert!(out[written..].iter().all(|&b| b == 0x7e));
    out.truncate(written);
    (0, Some(String::from_utf8(out).unwrap()))
}

fn printed(card: &[u8]) -> String {
    report(card, REPORT).1.unwrap()
}

#[test]
fn the_worked_card() {
    let text = "     2     2     2\n     0     0\n     1     1\n";
    assert_eq!(printed(WORKED), text);
    assert_eq!(report(WORKED, REPORT + 9), (0, Some(text.to_owned())));
}

#[test]
fn refusals_are_printed() {
    let changed = |from: &str, to: &str| {
        let card = String::from_utf8(WORKED.to_vec()).unwrap();
        assert!(card.contains(from));
        printed(card.replacen(from, to, 1).as_bytes())
    };
    assert_eq!(printed(b""), "     1\n");
    assert_eq!(printed(&WORKED[..WORKED.len() - 1]), "     1\n");
    assert_eq!(printed(&[WORKED, b"\n"].concat()), "     1\n");
    assert_eq!(printed(&[0xff; 20_000]), "     1\n");
    assert_eq!(changed("     2     0", "    33     0"), "     2\n");
    assert_eq!(changed("     2     0", "     2     2"), "     4\n");
    assert_eq!(changed("  2048", "  1023"), "     9\n");
    assert_eq!(
        changed("  2048", "  1536"),
        "     2     2     1\n     1     1\n"
    );
}

#[test]
fn the_greatest_report() {
    // 32 states a side, all alike
    let model = format!("{:>6}{:>6}{:>6}\n{}", 32, 0, 0, "     0\n".repeat(32));
    let text = printed(format!("{model}{model}     0  1024\n").as_bytes());
    assert_eq!(text.len(), REPORT);
    assert!(text.starts_with("    32    32  1024\n     0     0\n"));
    assert!(text.ends_with("    31    30\n    31    31\n"));
}

#[test]
fn a_short_store_is_refused() {
    assert_eq!(report(WORKED, REPORT - 1), (7, None));
    assert_eq!(report(WORKED, 0), (7, None));
    assert_eq!(report(b"", 0), (7, None));
}
