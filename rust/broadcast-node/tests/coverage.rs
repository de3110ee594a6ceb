//! Coverages beside a set of stamps.

mod common;

use broadcast_node::{Coverage, Span};
use common::Random;

fn span((from, to): (u64, u64)) -> Span {
    Span { from, to }
}

/// A coverage of stamps below 64, and whether it has each of them.
fn any(random: &mut Random) -> (Coverage, [bool; 64]) {
    let floor = random.below(9);
    let (mut at, mut spans, mut set) = (floor, Vec::new(), [false; 64]);
    (1..=floor).for_each(|it| set[it as usize] = true);
    for _ in 0..random.below(6) {
        let from = at + 1 + random.below(4);
        at = from + 1 + random.below(4);
        (from + 1..=at).for_each(|it| set[it as usize] = true);
        spans.push(span((from, at)));
    }
    (Coverage::reported(floor, spans).unwrap().unwrap(), set)
}

#[test]
fn has_its_stamps_and_finds_the_first_that_it_lacks() {
    let mut random = Random::new(1);
    for _ in 0..2_000 {
        let ((had, set), (other, others)) = (any(&mut random), any(&mut random));
        assert!((0..64).all(|it| had.has(it) == set[it as usize]), "{had:?}");
        let (above, upto) = (random.below(64), random.below(64));
        let first = (above + 1..=upto).find(|it| others[*it as usize] && !set[*it as usize]);
        assert_eq!(had.first_missing(&other, above, upto), first, "{had:?} {other:?}");
    }
}

#[test]
fn what_is_no_coverage_is_refused() {
    for spans in [&[(5, 7)][..], &[(6, 7), (7, 9)], &[(8, 7)], &[(7, 7)], &[(8, 9), (6, 7)]] {
        let spans = spans.iter().copied().map(span).collect();
        assert_eq!(Coverage::reported(5, spans), Ok(None));
    }
    let many = |count: u64| (1..=count).map(|it| span((10 * it, 10 * it + 5))).collect();
    assert!(Coverage::reported(5, many(63)).unwrap().is_some());
    assert_eq!(Coverage::reported(5, many(64)), Ok(None));
}

#[cfg(feature = "serde")]
#[test]
fn only_a_coverage_is_read() {
    let had = Coverage::reported(5, vec![span((7, 9))]).unwrap().unwrap();
    let text = serde_json::to_string(&had).unwrap();
    assert_eq!(text, r#"{"floor":5,"spans":[{"from":7,"to":9}]}"#);
    let read = |text: &str| serde_json::from_str::<Coverage>(text).map_err(|it| it.to_string());
    assert_eq!(read(&text), Ok(had));
    let refused = read(&text.replace('7', "4")).unwrap_err();
    assert!(refused.starts_with("a coverage has at most 63 spans"), "{refused}");
}
