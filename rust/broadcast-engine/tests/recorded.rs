//! The calls that the cache of an engine makes of the library are of the form that `form.rs` of `broadcast-node` says, over
//! generated runs. Of all subscriptions to a digest one ticket waits.

#[path = "../../broadcast-node/tests/common/form.rs"]
mod form;
mod support;

use broadcast_engine::{Digested, Mailbox, Message, Recipients, Snapshot};
use broadcast_node::{Digest, recorder};
use form::{Seen, look_at};
use rand::{Rng, SeedableRng, rngs::StdRng};
use support::*;

const OWN: Key = [1; 32];
const MESSAGES: u8 = 20;

fn message(n: u8) -> Digested<TestMessage> {
    TestMessage::digested(vec![n; 1 + usize::from(n) * 7 % 40])
}

fn length_of(name: &Digest) -> usize {
    let named = (0..MESSAGES).map(message).find(|it| Digest::new(it.digest()) == *name);
    named.expect("a message of the run").encode().len()
}

/// Does 100 random things with an engine that begins with the snapshot, if there is one. Returns a snapshot of it.
async fn run(
    random: &mut StdRng,
    snapshot: Option<Snapshot<Digested<TestMessage>>>,
) -> Snapshot<Digested<TestMessage>> {
    let (network, tracker) = (Network::new(0.0), Tracker::new(1));
    let config = config(OWN, &tracker).deque_size(4).byte_budget(250);
    let (engine, mailbox) = match snapshot {
        None => TestEngine::new(config).unwrap(),
        Some(it) => TestEngine::restore(config, it).unwrap(),
    };
    let _handle = engine.start(network.join(OWN));
    let mut waiting = Vec::new();
    for _ in 0..100 {
        let message = message(random.gen_range(0..MESSAGES));
        match random.gen_range(0..20) {
            0 => {
                let all = (1..5).map(|it| [it; 32]);
                tracker.track(0, &all.filter(|_| random.gen_bool(0.8)).collect::<Vec<Key>>());
            }
            1..4 => drop(mailbox.broadcast(Recipients::All, message)),
            4..10 => waiting.push(mailbox.subscribe(message.digest())),
            10..13 if !waiting.is_empty() => {
                drop(waiting.swap_remove(random.gen_range(0..waiting.len())));
            }
            _ => network.hand(&OWN, [random.gen_range(0..5); 32], message.encode()),
        }
        if random.gen_bool(0.5) {
            settle().await;
        }
    }
    Mailbox::snapshot(&mailbox).await.unwrap()
}

#[test]
fn the_calls_of_an_engine_have_the_form() {
    let mut total = Seen::default();
    for seed in 0..100 {
        let calls = recorder::calls(|| {
            let runtime = tokio::runtime::Builder::new_current_thread()
                .enable_time()
                .start_paused(true)
                .build()
                .unwrap();
            runtime.block_on(async {
                let mut random = StdRng::seed_from_u64(seed);
                let snapshot = run(&mut random, None).await;
                run(&mut random, Some(snapshot)).await;
            });
        });
        total.add(&look_at(&calls, length_of));
    }
    println!("{total:?}");
    assert!(total.least() >= 200 && total.together == 1, "{total:?}");
}
