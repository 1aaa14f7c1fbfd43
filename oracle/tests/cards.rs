//! The card of document 01 and the readings A1 to A23, each with its cases.

use oracle::answers::Oracle;
use oracle::args::CardArgs;
use oracle::card::{LONGEST_CARD, LONGEST_REPORT, report};
use oracle::generate::Rng;
use oracle::generate::card::{Sheet, Side, line, longest, overlong, random, shortest, worked};
use oracle::text::{Field, Value, read_cases, write_case};

const WORKED: &str = concat!(
    "     2     0     1\n",
    "     0\n",
    "     1\n",
    "     0     0     1     2\n",
    "     2     0     1\n",
    "     0\n",
    "     1\n",
    "     0     0     1     4\n",
    "     0  2048\n",
);

/// One state and no transition a side.
const SHORTEST: &str = concat!(
    "     1     0     0\n",
    "     0\n",
    "     1     0     0\n",
    "     0\n",
    "     0  1024\n",
);

/// What is printed.
fn printed(card: impl AsRef<[u8]>) -> String {
    String::from_utf8(report(card.as_ref())).expect("spaces, digits and line feeds")
}

/// The number printed, 0 where it is a relation.
fn number(card: impl AsRef<[u8]>) -> usize {
    let text = printed(card);
    match text.len() {
        7 => text.trim().parse().expect("a number"),
        _ => 0,
    }
}

/// The card of document 01 with this in place of that, which it has once.
fn with(from: &str, to: &str) -> Vec<u8> {
    assert_eq!(WORKED.matches(from).count(), 1, "{from}");
    WORKED.replace(from, to).into_bytes()
}

/// The card of document 01 with these lines in place of its own, which are counted from 0.
fn lines(list: &[(usize, &str)]) -> String {
    let mut lines: Vec<&str> = WORKED.lines().collect();
    for &(i, line) in list {
        lines[i] = line;
    }
    lines.iter().map(|line| format!("{line}\n")).collect()
}

/// The card of document 01, changed.
fn sheet(change: impl FnOnce(&mut Sheet)) -> Vec<u8> {
    let mut sheet = worked();
    change(&mut sheet);
    sheet.bytes()
}

#[test]
fn the_card_of_document_01() {
    assert_eq!(worked().bytes(), WORKED.as_bytes());
    assert_eq!(shortest().bytes(), SHORTEST.as_bytes());
    assert_eq!(
        printed(WORKED),
        "     2     2     2\n     0     0\n     1     1\n"
    );
    assert_eq!(printed(SHORTEST), "     1     1     1\n     0     0\n");
}

#[test]
fn the_longest_card_and_the_longest_report() {
    assert_eq!([LONGEST_CARD, LONGEST_REPORT], [10_499, 13_331]);
    let card = longest().bytes();
    let text = printed(&card);
    assert_eq!([card.len(), text.len()], [10_499, 13_331]);
    assert!(text.starts_with("    32    32  1024\n     0     0\n     0     1\n"));
    assert!(text.ends_with("    31    30\n    31    31\n"));
}

/// The store: 7 leaves it as it was, else the text is at its start.
#[test]
fn the_store() {
    let of = |card: &str, room: usize| {
        let (card, out) = (card.into(), vec![0xa5; room]);
        let a = CardArgs { card, out };
        let [answer, out]: [Field; 2] = a.oracle().try_into().expect("an answer and the store");
        (answer.value, out.value)
    };
    for card in [WORKED, "", "    33     0     0\n"] {
        for room in [0, 7, 45, 13_330] {
            let kept = Value::Hex(vec![0xa5; room]);
            let refused = Value::Answer(7, vec![Value::Number(0)]);
            assert_eq!(of(card, room), (refused, kept));
        }
        for room in [13_331, 13_332] {
            let mut out = report(card.as_bytes());
            let length = Value::Number(out.len() as u64);
            out.resize(room, 0xa5);
            let accepted = Value::Answer(0, vec![length]);
            assert_eq!(of(card, room), (accepted, Value::Hex(out)));
        }
    }
}

/// The text form of a case: the store by its length and its byte, the text alone after it.
#[test]
fn the_text_form() {
    let case = |card: &[u8], room: usize| {
        let (card, out) = (card.to_vec(), vec![9; room]);
        write_case(&CardArgs { card, out }.case())
    };
    let refused = "case card\ncard 1 0a\nroom 13331\nfill 9\nreport 0 7\nout 7 2020202020310a\n\n";
    assert_eq!(case(b"\n", 13_331), refused);
    let short = "case card\ncard 0\nroom 13330\nfill 9\nreport 7 0\nout 0\n\n";
    assert_eq!(case(b"", 13_330), short);
    let texts = [refused, short].concat();
    let read = read_cases(&texts).expect("two cases");
    assert_eq!(read.iter().map(write_case).collect::<String>(), texts);
}

#[test]
fn a1_columns_of_six_and_a_line_feed() {
    for (i, line) in WORKED.lines().enumerate() {
        let more = format!("{line}     0");
        let blank = format!("{line} ");
        let wide = format!(" {line}");
        let apart = line.replacen("     ", "      ", 1);
        let (less, cut) = (&line[6..], &line[1..]);
        for other in [&more[..], &blank, &wide, &apart, less, cut] {
            assert_eq!(number(lines(&[(i, other)])), 1, "{other:?}");
        }
    }
    assert_eq!(number(lines(&[(8, "     0, 2048")])), 1);
}

#[test]
fn a2_numbers() {
    let column = |text: &str| number(lines(&[(1, text)]));
    for good in ["     0", "     7", "    10", "100000", "999999"] {
        assert_eq!(column(good), 0, "{good}");
    }
    for bad in [
        "      ", "    00", "    01", "000000", "000001", "    +1", "    -1", "    -0", "   1.0",
        "     .", "   1e2", "    1 ", "0     ", "  1  1", "   0 0", "   0x1", "     x", "     /",
        "     :", " 1,000",
    ] {
        assert_eq!(column(bad), 1, "{bad}");
    }
}

#[test]
fn a3_columns_may_touch() {
    assert_eq!(number(lines(&[(8, "     0999999")])), 0);
    assert_eq!(number(lines(&[(8, "999999999999")])), 0);
    assert_eq!(number(lines(&[(3, "     0999999     1999999")])), 0);
    assert_eq!(number(lines(&[(0, "999999999999999999")])), 2);
    assert_eq!(number(lines(&[(1, "1000000")])), 1);
    assert_eq!(number(lines(&[(8, "     01000000")])), 1);
    assert_eq!(number(lines(&[(8, "     0 1000000")])), 1);
}

#[test]
fn a4_only_spaces_pad() {
    for byte in (0..=255).filter(|byte| !b" 0123456789\n".contains(byte)) {
        for i in [0, 18, 24, 30, WORKED.len() - 6, WORKED.len() - 1] {
            let mut card = WORKED.as_bytes().to_vec();
            card[i] = byte;
            assert_eq!(number(&card), 1, "{byte} at {i}");
        }
    }
    assert_eq!(number(WORKED.replace('\n', "\r\n")), 1);
    assert_eq!(number(format!("\u{feff}{WORKED}")), 1);
    assert_eq!(number(format!(" {WORKED}")), 1);
}

#[test]
fn a5_the_last_line_feed() {
    assert_eq!(number(WORKED.trim_end_matches('\n')), 1);
}

#[test]
fn a6_a_line_per_class() {
    let classes = "     0\n     1\n     0     0     1     2\n";
    assert_eq!(number(with(classes, &classes.replacen('\n', "", 1))), 1);
}

#[test]
fn a7_missing_and_empty_lines() {
    let feeds = WORKED.match_indices('\n').map(|(i, _)| i + 1);
    for start in [0].into_iter().chain(feeds) {
        let (before, after) = WORKED.split_at(start);
        assert_eq!(number(before), usize::from(!after.is_empty()), "{before}");
        assert_eq!(number(format!("{before}\n{after}")), 1, "{before}");
    }
    assert_eq!([number(""), number("\n")], [1, 1]);
}

#[test]
fn a8_after_the_last_line() {
    for byte in 0..=255 {
        assert_eq!(number([WORKED.as_bytes(), &[byte]].concat()), 1, "{byte}");
    }
    let followed = |card: Vec<u8>| number([&card[..], b"\n"].concat());
    let (state, ratio) = (sheet(|c| c.left.initial = 2), with("  2048", "  1023"));
    assert_eq!([number(&state), followed(state)], [4, 1]);
    assert_eq!([number(&ratio), followed(ratio)], [9, 1]);
    assert_eq!(followed(sheet(|c| c.right.states = 33)), 2);
}

#[test]
fn a9_1_before_2_in_a_line() {
    assert_eq!(number("    33     0     x\n"), 1);
    assert_eq!(number("    33     0     0"), 1);
    assert_eq!(number("    33     0     0\r\n"), 1);
    assert_eq!(number("    33     0     0\n"), 2);
    assert_eq!(number("    33    00     0\n"), 1);
    assert_eq!(number(lines(&[(4, "    33     0   0 1")])), 1);
}

#[test]
fn a10_2_at_the_head() {
    assert_eq!(number("    33     0     0\nnonsense"), 2);
    assert_eq!(number(lines(&[(0, "    33     0     1"), (1, "x")])), 2);
    assert_eq!(number(lines(&[(4, "    33     0     1"), (5, "x")])), 2);
    assert_eq!(number(lines(&[(4, "    33     0     1"), (8, "")])), 2);
    for fault in 0..4 {
        let card = lines(&[(fault, "x"), (4, "    33     0   201")]);
        assert_eq!(number(card), 1, "{fault}");
    }
}

#[test]
fn a11_what_2_counts() {
    for (states, transitions, expected) in [
        (32, 200, 1),
        (33, 200, 2),
        (32, 201, 2),
        (33, 201, 2),
        (0, 201, 2),
        (33, 0, 2),
    ] {
        assert_eq!(number(line(&[states, 0, transitions])), expected);
    }
    let side = |states: usize, transitions: usize| {
        Side::new(0, &vec![0; states], &vec![[0, 0, 0, 0]; transitions])
    };
    for (states, transitions, expected) in [(32, 200, 0), (33, 200, 2), (32, 201, 2)] {
        let side = side(states, transitions);
        assert_eq!(number(sheet(|c| c.left = side.clone())), expected);
        assert_eq!(number(sheet(|c| c.right = side)), expected);
    }
    assert_eq!(printed("    33     0   201\n"), "     2\n");
}

#[test]
fn a12_later_checks_by_number_over_both_models() {
    assert_eq!(number(sheet(|c| (c.right.initial, c.rho) = (2, 1_023))), 4);
    assert_eq!(number(sheet(|c| (c.left.initial, c.rho) = (2, 1_023))), 4);
    assert_eq!(
        number(sheet(|c| (c.left.initial, c.right.states) = (2, 33))),
        2
    );
    assert_eq!(
        number(sheet(|c| (c.left.initial, c.right.states) = (2, 1))),
        1
    );
    assert_eq!(
        number(lines(&[(0, "     2     2     1"), (8, "     0  102")])),
        1
    );
}

#[test]
fn a13_which_numbers_4_concerns() {
    for (states, expected) in [(1, 0), (2, 4), (3, 4), (999_999, 4)] {
        assert_eq!(number(sheet(|c| c.left.initial = states)), expected);
        assert_eq!(number(sheet(|c| c.right.initial = states)), expected);
        for (column, weight) in [(0, 1), (0, 0), (2, 1), (2, 0)] {
            let change = |side: &mut Side| {
                side.transitions[0][column] = states;
                side.transitions[0][3] = weight;
            };
            assert_eq!(number(sheet(|c| change(&mut c.left))), expected);
            assert_eq!(number(sheet(|c| change(&mut c.right))), expected);
        }
    }
    assert_eq!(number(sheet(|c| c.left.classes = vec![2, 999_999])), 0);
    assert_eq!(number(sheet(|c| c.right.transitions[0][1] = 999_999)), 0);
    // each model by its own count
    let three = Side::new(2, &[0, 1, 1], &[[0, 0, 2, 1]]);
    assert_eq!(number(sheet(|c| c.left = three.clone())), 0);
    assert_eq!(number(sheet(|c| (c.left, c.right.initial) = (three, 2))), 4);
}

#[test]
fn a14_no_states() {
    for initial in [0, 1, 32, 999_999] {
        let none = Side::new(initial, &[], &[]);
        assert_eq!(number(sheet(|c| c.left = none.clone())), 4);
        assert_eq!(number(sheet(|c| c.right = none.clone())), 4);
        assert_eq!(
            number(sheet(|c| (c.left, c.right) = (none.clone(), none.clone()))),
            4
        );
        assert_eq!(number(sheet(|c| (c.left, c.rho) = (none, 0))), 4);
    }
    let read = Side::new(0, &[], &[[0, 0, 0, 1]]);
    assert_eq!(number(sheet(|c| c.left = read)), 4);
    assert_eq!(number("     0     0     1\n     0     0     0     x\n"), 1);
    assert_eq!(number("     0     0     1\n"), 1);
}

/// No other number, whatever the card; that no other applies to a good card is tested beside the reader.
#[test]
fn a15_only_1_2_4_and_9() {
    let rng = &mut Rng::new(8);
    for _ in 0..2_000 {
        let card = random(rng, 8, 10);
        let shown = String::from_utf8_lossy(&card);
        assert!([0, 1, 2, 4, 9].contains(&number(&card)), "{shown}");
    }
}

#[test]
fn a16_tolerances() {
    for epsilon in [0, 1, 1_023, 1_024, 1_025, 999_999] {
        assert_eq!(number(sheet(|c| c.epsilon = epsilon)), 0);
    }
    for (rho, expected) in [
        (0, 9),
        (1, 9),
        (1_023, 9),
        (1_024, 0),
        (1_025, 0),
        (999_999, 0),
    ] {
        assert_eq!(number(sheet(|c| c.rho = rho)), expected);
    }
}

#[test]
fn a17_classes_and_labels() {
    let renamed = sheet(|c| {
        (c.left.classes, c.right.classes) = (vec![999_999, 0], vec![999_999, 0]);
        (c.left.transitions[0][1], c.right.transitions[0][1]) = (999_999, 33);
    });
    assert_eq!(printed(renamed), printed(WORKED));
    let apart = sheet(|c| c.right.classes = vec![1, 0]);
    assert_eq!(printed(apart), "     2     2     0\n");
    let rng = &mut Rng::new(9);
    for _ in 0..100 {
        let mut sheet = oracle::generate::card::sheet(rng, 8, 16);
        let text = printed(sheet.bytes());
        let sides = [&mut sheet.left, &mut sheet.right];
        let transitions = sides.into_iter().flat_map(|side| &mut side.transitions);
        transitions.for_each(|t| t[1] = rng.below(1_000_000));
        assert_eq!(printed(sheet.bytes()), text, "{sheet:?}");
    }
}

/// M8 and M9 on cards.
#[test]
fn a18_tolerances_in_1024ths() {
    let pairs = |card: Vec<u8>| printed(card).lines().count() - 1;
    for (rho, expected) in [(1_536, 1), (2_047, 1), (2_048, 2), (2_049, 2)] {
        assert_eq!(pairs(sheet(|c| c.rho = rho)), expected);
    }
    let fan = |a: usize, b: usize| Side::new(0, &[0, 1, 2], &[[0, 0, 1, a], [0, 0, 2, b]]);
    for (epsilon, expected) in [
        (0, 2),
        (204, 2),
        (255, 2),
        (256, 3),
        (1_024, 3),
        (999_999, 3),
    ] {
        let (left, right, rho) = (fan(3, 1), fan(2, 2), 1_024);
        let sheet = Sheet {
            left,
            right,
            epsilon,
            rho,
        };
        assert_eq!(pairs(sheet.bytes()), expected, "{epsilon}");
    }
}

#[test]
fn a19_a20_right_numbers_and_pairs() {
    let of = |left: &[usize], right: &[usize]| {
        let sheet = Sheet {
            left: Side::new(0, left, &[]),
            right: Side::new(0, right, &[]),
            ..worked()
        };
        printed(sheet.bytes())
    };
    assert_eq!(
        of(&[5, 6, 5], &[6, 5]),
        "     3     2     3\n     0     1\n     1     0\n     2     1\n"
    );
    assert_eq!(
        of(&[5], &[5, 6, 5]),
        "     1     3     2\n     0     0\n     0     2\n"
    );
    assert_eq!(of(&[5, 5], &[6]), "     2     1     0\n");
    assert_eq!(of(&[5], &[6]).len(), 19);
}

#[test]
fn a21_a_refusal_prints_its_line_only() {
    assert_eq!(printed(""), "     1\n");
    assert_eq!(printed(sheet(|c| c.left.states = 33)), "     2\n");
    assert_eq!(printed(sheet(|c| c.left.initial = 2)), "     4\n");
    assert_eq!(printed(sheet(|c| c.rho = 0)), "     9\n");
}

#[test]
fn a22_longer_than_any_good_card() {
    for length in [10_499, 10_500, 10_501, 100_000] {
        let padded = |mut card: Vec<u8>| {
            card.resize(length, b' ');
            number(card)
        };
        let mut over = longest();
        over.right.given = 201;
        let mut outside = longest();
        outside.left.initial = 32;
        assert_eq!(padded(over.bytes()), 2);
        assert_eq!(padded(b"    33     0     0\n".to_vec()), 2);
        assert_eq!(padded(longest().bytes()), usize::from(length > 10_499));
        let expected = if length > 10_499 { 1 } else { 4 };
        assert_eq!(padded(outside.bytes()), expected);
        assert_eq!(padded(Vec::new()), 1);
    }
    let mut numbers = [0; 10];
    overlong(&mut |card| numbers[number(card)] += 1);
    assert!(
        numbers[1] > 50 && numbers[2] > 50 && numbers[0] == 4,
        "{numbers:?}"
    );
}

#[test]
fn a23_more_or_fewer_lines_than_announced() {
    const CHANGES: [fn(&mut Sheet); 8] = [
        |c| c.left.states = 1,
        |c| c.left.states = 3,
        |c| c.left.given = 0,
        |c| c.left.given = 2,
        |c| c.right.states = 1,
        |c| c.right.states = 3,
        |c| c.right.given = 0,
        |c| c.right.given = 2,
    ];
    for change in CHANGES {
        assert_eq!(number(sheet(change)), 1);
    }
    // a line that happens to read as a head over the limit
    assert_eq!(
        number("     0     0     0\n    33     0     1\n     0\n"),
        2
    );
    assert_eq!(
        number("     1     0     0\n     0\n     1     0   201\n"),
        2
    );
    // and one that would, but stands where no head should
    assert_eq!(number("     1     0     0\n    33     0     0\n"), 1);
    assert_eq!(
        number(SHORTEST.replace("     0  1024\n", "    33     0     0\n")),
        1
    );
}
