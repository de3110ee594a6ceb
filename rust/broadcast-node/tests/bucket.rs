//! Buckets beside a sum in whole numbers.

mod common;

use broadcast_node::Bucket;
use common::Random;

const SECOND: u64 = 1_000_000_000;

#[test]
fn has_what_it_gained_less_what_it_was_charged() {
    let mut random = Random::new(1);
    for _ in 0..2_000 {
        let (rate, burst) = (random.below(1_000), random.below(1_000));
        let mut bucket = Bucket::new(rate, burst, 5).unwrap();
        let (full, mut has) = (i128::from(burst * SECOND), i128::from(burst * SECOND));
        let mut now = 5;
        for _ in 0..20 {
            let step = random.below(SECOND);
            now += step;
            has = (has + i128::from(rate * step)).min(full);
            assert_eq!(i128::from(bucket.level(now)), has.max(0) / i128::from(SECOND));
            let cost = random.below(300);
            match bucket.ready(now, cost) {
                Some(at) => {
                    assert!(bucket.level(at) >= cost && (at == now || bucket.level(at - 1) < cost))
                }
                None => assert!(cost > burst || rate == 0),
            }
            bucket.charge(now, cost);
            has -= i128::from(cost * SECOND);
        }
    }
}

#[test]
fn debts_have_more_than_64_bits() {
    let mut bucket = Bucket::new(u64::MAX, u64::MAX, 0).unwrap();
    (0..2).for_each(|_| bucket.charge(0, u64::MAX));
    assert_eq!((bucket.level(SECOND), bucket.ready(0, 1)), (0, Some(SECOND + 1)));
    assert_eq!(bucket.level(2 * SECOND), u64::MAX);
}
