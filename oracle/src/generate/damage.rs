//! Ways to change a card: faults of its numbers and changes that leave it good, and damage to its bytes.

use super::card::{GREATEST, Sheet, Side, line};
use super::{Rng, place};

/// A way to change the numbers.
pub type Change = fn(&mut Rng, &mut Sheet);
/// A way to change the bytes.
pub type Damage = fn(&mut Rng, &mut Vec<u8>);

/// Changes after which a good card is refused, with the number.
pub const FAULTS: &[(u32, &str, Change)] = &[
    (1, "a state more than announced", |rng, c| {
        side(rng, c).states -= 1
    }),
    (1, "a state fewer than announced", |rng, c| {
        side(rng, c).states += 1
    }),
    (1, "a transition more than announced", |rng, c| {
        side(rng, c).given -= 1
    }),
    (1, "a transition fewer than announced", |rng, c| {
        side(rng, c).given += 1
    }),
    (1, "seven digits", |rng, c| {
        transition(rng, c)[3] = GREATEST + 1
    }),
    (
        1,
        "right head over the limits, but seven digits on the left",
        |rng, c| {
            c.left.classes[place(rng, c.left.states)] = GREATEST + 1;
            c.right.states = 33
        },
    ),
    (2, "33 states", |rng, c| resize(side(rng, c), 33)),
    (2, "states over 32, not listed", |rng, c| {
        side(rng, c).states = rng.pick(&[33, 64, 2_001, GREATEST])
    }),
    (2, "201 transitions", |rng, c| repeat(side(rng, c), 201)),
    (2, "transitions over 200, not listed", |rng, c| {
        side(rng, c).given = rng.pick(&[201, 256, 4_097, GREATEST])
    }),
    (2, "both over", |rng, c| {
        let s = side(rng, c);
        (s.states, s.given) = (33, 201)
    }),
    (
        2,
        "right head over the limits, with a 4 on the left and a 9",
        |_, c| {
            (c.left.initial, c.rho) = (c.left.states, 0);
            c.right.given = 201
        },
    ),
    (4, "initial state", |rng, c| {
        let s = side(rng, c);
        s.initial = rng.pick(&[s.states, s.states, s.states + 1, GREATEST])
    }),
    (4, "source", |rng, c| state(rng, c, 0)),
    (4, "target", |rng, c| state(rng, c, 2)),
    (4, "target of a weight of zero", |rng, c| {
        let s = side(rng, c);
        let (i, states) = (place(rng, s.transitions.len()), s.states);
        (s.transitions[i][2], s.transitions[i][3]) = (states, 0)
    }),
    (4, "no states", |rng, c| {
        let initial = rng.pick(&[0, 0, 1, GREATEST]);
        *side(rng, c) = Side::new(initial, &[], &[])
    }),
    (4, "no states, but transitions", |rng, c| {
        resize(side(rng, c), 0)
    }),
    (4, "target of the right model, with a 9", |rng, c| {
        let i = place(rng, c.right.transitions.len());
        (c.right.transitions[i][2], c.rho) = (c.right.states, 1_023)
    }),
    (9, "ρ just below 1", |_, c| c.rho = 1_023),
    (9, "ρ below 1", |rng, c| {
        c.rho = rng.pick(&[0, 1, 512, 1_000, 1_022])
    }),
];

/// Changes that leave a good card good.
pub const HARMLESS: &[(&str, Change)] = &[
    ("32 states", |rng, c| resize(side(rng, c), 32)),
    ("200 transitions", |rng, c| repeat(side(rng, c), 200)),
    ("weight at a limit", |rng, c| {
        transition(rng, c)[3] = rng.pick(&[0, GREATEST])
    }),
    ("label", |rng, c| {
        transition(rng, c)[1] = rng.pick(&[32, 257, GREATEST])
    }),
    ("class", |rng, c| {
        let s = side(rng, c);
        s.classes[place(rng, s.states)] = rng.pick(&[32, 257, GREATEST])
    }),
    ("last state the initial one", |rng, c| {
        let s = side(rng, c);
        s.initial = s.states - 1
    }),
    ("last state a target", |rng, c| {
        let s = side(rng, c);
        let i = place(rng, s.transitions.len());
        s.transitions[i][2] = s.states - 1
    }),
    ("a loop", |rng, c| {
        let t = transition(rng, c);
        t[2] = t[0]
    }),
    ("ε at a limit", |rng, c| {
        c.epsilon = rng.pick(&[0, 1, 1_024, 1_025, GREATEST])
    }),
    ("ρ at a limit", |rng, c| {
        c.rho = rng.pick(&[1_024, 1_025, GREATEST])
    }),
];

/// Damage after which a good card gives 1.
pub const DAMAGE: &[(&str, Damage)] = &[
    ("nothing", |_, card| card.clear()),
    ("cut", |rng, card| card.truncate(rng.below(card.len()))),
    ("no last line feed", |_, card| card.truncate(card.len() - 1)),
    ("a byte after the end", |rng, card| {
        card.push(rng.pick(b"\n\n 0\r\0\x1a\xff"))
    }),
    ("a line after the end", |rng, card| {
        let numbers = rng.pick(&[1, 2, 3, 4]);
        card.extend(line(&[0; 4][..numbers]).bytes())
    }),
    ("the card twice", |_, card| card.extend_from_within(..)),
    ("lines end in CR LF", |_, card| {
        let lines: Vec<&[u8]> = card.split(|&b| b == b'\n').collect();
        *card = lines.join(&b"\r\n"[..])
    }),
    ("a line ends in CR LF", |rng, card| {
        let end = end(rng, card);
        card.insert(end, b'\r')
    }),
    ("CR in place of a line feed", |rng, card| {
        let end = end(rng, card);
        card[end] = b'\r'
    }),
    ("leading zero", |rng, card| {
        let i = before_number(rng, card);
        card[i] = b'0'
    }),
    ("sign", |rng, card| {
        let i = before_number(rng, card);
        card[i] = rng.pick(b"+-")
    }),
    ("other padding", |rng, card| {
        let i = found(rng, card, |b| b == b' ');
        card[i] = rng.pick(b"\t\r\0\x0b\x0c_\xa0\xff")
    }),
    ("no digit", |rng, card| {
        let i = found(rng, card, |b| b.is_ascii_digit());
        card[i] = rng.pick(b"x./:\0\t\xb2")
    }),
    ("blank column", |rng, card| {
        let start = column(rng, card);
        card[start..start + 6].fill(b' ')
    }),
    ("blank after the digits", |rng, card| {
        let i = before_number(rng, card);
        let start = start_of_column(card, i);
        card[start..start + 6].rotate_left(1)
    }),
    // the first column of the card has two digits at most
    ("blank between digits", |rng, card| {
        card[0] = rng.pick(b"0123")
    }),
    ("a line left out", |rng, card| {
        let (start, end) = whole_line(rng, card);
        card.drain(start..end);
    }),
    ("a line twice", |rng, card| {
        let (start, end) = whole_line(rng, card);
        let copy = card[start..end].to_vec();
        card.splice(start..start, copy);
    }),
    ("lines of other widths swapped", swap_lines),
    ("an empty line", |rng, card| {
        let (start, _) = whole_line(rng, card);
        card.insert(start, b'\n')
    }),
    ("a column more", |rng, card| {
        let end = end(rng, card);
        card.splice(end..end, *b"     0");
    }),
    ("a column less", |rng, card| {
        let end = end(rng, card);
        card.drain(end - 6..end);
    }),
    ("a digit more", |rng, card| {
        let end = end(rng, card);
        card.insert(end, b'0')
    }),
    ("a blank at the end of a line", |rng, card| {
        let end = end(rng, card);
        card.insert(end, b' ')
    }),
    ("a blank at the start of a line", |rng, card| {
        let (start, _) = whole_line(rng, card);
        card.insert(start, b' ')
    }),
    ("two lines in one", |rng, card| {
        let end = end(rng, card);
        card.remove(end);
    }),
    ("a line in two", |rng, card| {
        let start = column(rng, card);
        card.insert(start + 1 + rng.below(5), b'\n')
    }),
    ("a byte-order mark", |_, card| {
        card.splice(..0, *b"\xef\xbb\xbf");
    }),
    ("a byte taken out", |rng, card| {
        card.remove(rng.below(card.len()));
    }),
    ("a byte over 127", |rng, card| {
        let i = rng.below(card.len());
        card[i] |= 0x80
    }),
];

/// True where every change can be made.
pub fn intact(c: &Sheet) -> bool {
    let side = |s: &Side| {
        let listed = (s.classes.len(), s.transitions.len());
        (1..=32).contains(&s.states)
            && (1..=200).contains(&s.given)
            && listed == (s.states, s.given)
    };
    side(&c.left) && side(&c.right)
}

fn side<'a>(rng: &mut Rng, c: &'a mut Sheet) -> &'a mut Side {
    if rng.once_in(2) {
        &mut c.left
    } else {
        &mut c.right
    }
}

fn transition<'a>(rng: &mut Rng, c: &'a mut Sheet) -> &'a mut [usize; 4] {
    let s = side(rng, c);
    let i = place(rng, s.transitions.len());
    &mut s.transitions[i]
}

/// A source or a target that is not below the count.
fn state(rng: &mut Rng, c: &mut Sheet, column: usize) {
    let s = side(rng, c);
    let i = place(rng, s.transitions.len());
    s.transitions[i][column] = rng.pick(&[s.states, s.states, s.states + 1, 32, GREATEST]);
}

/// Lists so many states, the transitions as they are.
fn resize(s: &mut Side, states: usize) {
    s.classes.resize(states, 0);
    s.states = states;
}

/// Lists so many transitions, the first once and again.
fn repeat(s: &mut Side, transitions: usize) {
    let first = s.transitions[0];
    s.transitions.resize(transitions, first);
    s.given = transitions;
}

/// The place of such a byte.
fn found(rng: &mut Rng, card: &[u8], such: fn(u8) -> bool) -> usize {
    let places: Vec<usize> = (0..card.len()).filter(|&i| such(card[i])).collect();
    rng.pick(&places)
}

/// The place of a line feed.
fn end(rng: &mut Rng, card: &[u8]) -> usize {
    found(rng, card, |b| b == b'\n')
}

/// Where the line begins that this byte is in.
fn start_of_line(card: &[u8], i: usize) -> usize {
    let before = card[..i].iter().rposition(|&b| b == b'\n');
    before.map_or(0, |feed| feed + 1)
}

/// Where the column begins that this byte is in.
fn start_of_column(card: &[u8], i: usize) -> usize {
    i - (i - start_of_line(card, i)) % 6
}

/// Where a line begins and the next one.
fn whole_line(rng: &mut Rng, card: &[u8]) -> (usize, usize) {
    let end = end(rng, card);
    (start_of_line(card, end), end + 1)
}

/// Where a column begins.
fn column(rng: &mut Rng, card: &[u8]) -> usize {
    let i = found(rng, card, |b| b != b'\n');
    start_of_column(card, i)
}

/// The place of a space before a number.
fn before_number(rng: &mut Rng, card: &[u8]) -> usize {
    let here = |i: usize| card[i] == b' ' && card[i + 1].is_ascii_digit();
    let places: Vec<usize> = (0..card.len() - 1).filter(|&i| here(i)).collect();
    rng.pick(&places)
}

/// Puts a line of another width in the place of a line, and that in its place.
fn swap_lines(rng: &mut Rng, card: &mut Vec<u8>) {
    let mut lines: Vec<&[u8]> = card.split_inclusive(|&b| b == b'\n').collect();
    let i = rng.below(lines.len());
    let others: Vec<usize> = (0..lines.len())
        .filter(|&j| lines[j].len() != lines[i].len())
        .collect();
    lines.swap(i, rng.pick(&others));
    *card = lines.concat();
}

#[cfg(test)]
mod tests {
    use super::super::card::small;
    use super::*;
    use crate::card::report;

    #[test]
    fn every_fault_is_refused_and_nothing_harmless_is() {
        let rng = &mut Rng::new(5);
        for _ in 0..100 {
            let base = small(rng);
            for (expected, name, change) in FAULTS {
                let mut c = base.clone();
                change(rng, &mut c);
                let expected = line(&[*expected as usize]);
                assert_eq!(report(&c.bytes()), expected.as_bytes(), "{name}: {c:?}");
            }
            for (name, change) in HARMLESS {
                let mut c = base.clone();
                change(rng, &mut c);
                assert!(report(&c.bytes()).len() >= 19, "{name}: {c:?}");
            }
        }
    }

    #[test]
    fn all_damage_gives_1() {
        let rng = &mut Rng::new(6);
        for _ in 0..100 {
            let base = small(rng).bytes();
            for (name, damage) in DAMAGE {
                let mut card = base.clone();
                damage(rng, &mut card);
                let shown = String::from_utf8_lossy(&card);
                assert_eq!(report(&card), b"     1\n", "{name}: {shown:?}");
            }
        }
    }
}
