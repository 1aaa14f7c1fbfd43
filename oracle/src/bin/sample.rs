//! Prints a part of the fixed list of cases with the oracle's answers, for the programs that replay it without Rust.

use oracle::sample;

/// The text of a part.
fn text(part: &str) -> Option<String> {
    match part {
        "models" => Some(sample::text()),
        "networks" => Some(sample::flow::text()),
        "relations" => Some(sample::relation::text()),
        "cards" => Some(sample::card::text()),
        "transports" => Some(sample::transport::text()),
        "chains" => Some(sample::chain::text()),
        "distances" => Some(sample::distance::text()),
        "model-distances" => Some(sample::distance::of_models()),
        _ => None,
    }
}

fn main() {
    let mut args = std::env::args().skip(1);
    let part = args.next().unwrap_or_default();
    let (Some(text), None) = (text(&part), args.next()) else {
        eprintln!(
            "one part: models, networks, relations, cards, transports, chains, distances or model-distances"
        );
        std::process::exit(2);
    };
    print!("{text}");
}
