//! The chart of a traced run.

mod common;

use common::simulated;
use library::chart::{draw, MOST};
use library::trace::trace;

const LOSSY: &[u8] = include_bytes!("../data/lossy.bin");

fn chart(input: &[u8]) -> String {
    draw(&trace(input, MOST).expect("memory can be read"))
}

/// Every tag is closed in its order, attributes are quoted, and no bare `&` or `<` stands in a text.
fn assert_well_formed(svg: &str) {
    let body = svg
        .strip_prefix("<?xml version=\"1.0\" encoding=\"UTF-8\"?>\n")
        .expect("a declaration stands first");
    let mut open = Vec::new();
    let mut rest = body;
    while let Some((text, behind)) = rest.split_once('<') {
        assert!(!text.contains(['&', '>']), "{text}");
        let (tag, behind) = behind.split_once('>').expect("a tag ends");
        rest = behind;
        if let Some(name) = tag.strip_prefix('/') {
            assert_eq!(open.pop(), Some(name));
            continue;
        }
        assert_eq!(tag.matches('"').count() % 2, 0, "{tag}");
        assert!(!tag.contains(['<', '&']), "{tag}");
        let name = tag.split([' ', '/']).next().expect("a name");
        if !tag.ends_with('/') {
            open.push(name);
        }
    }
    assert!(open.is_empty(), "{open:?}");
    assert_eq!(rest, "\n");
}

#[test]
fn every_delivery_is_drawn_and_every_refusal_has_its_number() {
    let traced = trace(LOSSY, MOST).expect("memory can be read");
    let svg = draw(&traced);
    assert_well_formed(&svg);
    assert_eq!(svg.matches("<g>").count(), traced.delivered);
    for answer in 1..=11 {
        let given = traced.deliveries.iter();
        let given = given.filter(|delivery| delivery.outcome.answer == answer);
        let drawn = svg.lines().filter(|line| {
            line.starts_with("<text class=\"number\"")
                && line.ends_with(&format!(">{answer}</text>"))
        });
        assert_eq!(drawn.count(), given.count(), "{answer}");
    }
    for words in [
        "Submit 0, log 0",
        "Forward, log 1",
        "ShardAppend, log 0, sn 1",
        "ExecNotif, log 1",
        "Executed, log 1",
        "Response 0, log 0",
        "client 0",
        "board 3",
        "shard 2",
    ] {
        assert!(svg.contains(words), "{words}");
    }
}

#[test]
fn any_input_has_a_chart() {
    for (seed, mischief) in [(1, 0), (2, 30), (3, 100)] {
        assert_well_formed(&chart(&simulated(seed, 300, mischief)));
    }
    assert_well_formed(&chart(&[2, 1]));
    let cut = chart(&[2, 1, 1]);
    assert_well_formed(&cut);
    assert!(cut.contains("the input was cut here"));
    let refused = chart(&[9, 9]);
    assert_well_formed(&refused);
    assert!(refused.contains("setup 11"));
}

#[test]
fn a_long_run_is_drawn_in_part_and_says_so() {
    let svg = chart(&simulated(5, 3_000, 0));
    assert_well_formed(&svg);
    assert_eq!(svg.matches("<g>").count(), MOST);
    assert!(svg.contains("1000 deliveries shown, "));
}
