//! Relays in a simulated world: faults of the network and hostile relays, thousands of runs in `scripts/relays soak`.

mod hostile;
mod model;
mod scenes;
mod verdict;
mod world;

use broadcast_relay::gossip::{Bounds, Frame, Machine, Message, Past, Report, SECOND, Taken};
use model::Model;
use scenes::{CLASSES, HONEST};
use verdict::Outcome;
use world::{Node, Random, World, machine};

fn check(class: &str, world: World) -> Outcome {
    let outcome = world.run(true);
    let Outcome { wrong, what, copies, deliveries, .. } = &outcome;
    assert!(wrong.is_empty(), "{class}, {what}: {} of {}", wrong[0], wrong.len());
    // Each message comes once, but for what is in flight when others are asked.
    let most = if ["crash", "mixed", "long"].contains(&class) { 1.6 } else { 1.25 };
    let is_few = *copies as f64 <= most * *deliveries as f64;
    assert!(*deliveries < 5_000 || is_few, "{class}, {what}: {copies} copies of {deliveries}");
    outcome
}

/// Some runs of a class with few relays, which take little time.
fn small_runs(class: &str, stop: u64, is_default: bool) -> impl Iterator<Item = World> {
    let class = class.to_owned();
    let runs = (1..).map(move |seed| World::new(&class, seed, stop, is_default));
    runs.filter(|it| it.nodes.len() <= 8)
}

#[test]
fn in_each_class_of_runs_all_arrives_once() {
    for class in CLASSES {
        let mut deliveries = 0;
        // Beside many that claim what they do not bring, an author that starts waits for six seconds.
        let stop = if class == "swarm" { 10 * SECOND } else { 4 * SECOND };
        for world in small_runs(class, stop, false).take(2) {
            deliveries += check(class, world).deliveries;
        }
        assert!(deliveries > 0, "{class}");
    }
}

/// A run with hostile relays and its twin without them: how much later what slow honest authors say comes beside them, a hop, and the most
/// that it may be later.
fn late(class: &str, place: usize) -> (u64, u64) {
    let new = || small_runs(class, 4 * SECOND, false).nth(place).unwrap();
    let (world, mut twin) = (new(), new());
    let hops: Vec<_> = (0..world.nodes.len()).map(|it| world.hops(it)).collect();
    let peers = world.near.iter().map(Vec::len).max().unwrap_or(1) as f64;
    // A wait is half a second and two round trips, which take at most 0.4 s here.
    let most = (0.9e6 * (1.0 + peers.log2())) as u64;
    let honest: Vec<bool> = world.nodes.iter().map(Node::is_honest).collect();
    twin.nodes.iter_mut().filter(|it| !it.is_honest()).for_each(Node::leave);
    let (with, without) = (check(class, world).came, check(class, twin).came);
    let far = |node: usize, author: usize| hops[author].get(&node).copied().unwrap_or(1).max(1);
    let late = with
        .iter()
        .filter(|((_, author, _), _)| honest[*author])
        .filter_map(|(id, at)| Some(at.saturating_sub(*without.get(id)?) / far(id.0, id.1)));
    (late.max().unwrap_or(0), most)
}

/// The property of the README: whatever hostile peers do, what is on a list comes, and not later than by a wait for each doubling of
/// those that are asked. What fast authors say is held back for who stands still, so it is not looked at.
fn judge_twins(places: std::ops::Range<usize>) {
    for class in &CLASSES[HONEST..] {
        // Whose faults differ from those of its twin, or who leaves few honest relays.
        if ["mixed", "swarm"].contains(class) {
            continue;
        }
        for place in places.clone() {
            let (late, most) = late(class, place);
            assert!(late <= most, "{class}, run {place}: {late} of {most} us");
        }
    }
}

#[test]
fn beside_hostile_relays_all_comes_and_in_time() {
    judge_twins(0..1);
}

/// `SOAK_SEEDS` as below, of which only the count is looked at.
#[test]
#[ignore = "it takes long"]
fn many_twins() {
    judge_twins(0..soak_seeds().1 as usize);
}

/// What the library answers in a simulated run is compared with its definition: lists, floors, reports, lags, what is sent next.
#[test]
fn the_library_answers_by_its_definition() {
    let mut compared = 0;
    for class in ["calm", "crash", "big", "part", "push", "pact"] {
        let mut world = small_runs(class, SECOND, false).next().unwrap();
        let budget = world.bounds.list;
        for node in world.nodes.iter_mut().filter(|it| it.is_honest()) {
            node.model = Some(Model::new(budget));
        }
        compared += check(class, world).compared;
    }
    assert!(compared > 5_000, "{compared}");
}

/// Gaps are what the protocol stood still in before its rules were what they are.
#[test]
fn a_gap_is_filled() {
    for world in small_runs("gaps", 2 * SECOND, false).take(24) {
        check("gaps", world);
    }
}

/// A relay stands still for longer than others wait for it. What is lost there is counted, which each run judges.
#[test]
fn what_is_lost_is_told() {
    let lost: u64 = small_runs("long", 0, false).take(4).map(|it| check("long", it).lost).sum();
    assert!(lost > 0);
}

/// A relay was once waited for only after its first report.
#[test]
fn who_stands_still_before_it_reports_misses_nothing() {
    for seed in [1, 11] {
        check("late", World::new("late", seed, 4 * SECOND, false));
    }
}

/// The bounds of the program's own defaults take longer to be met.
#[test]
fn the_default_bounds_hold_too() {
    for class in ["rows", "lag", "creep"] {
        check(class, small_runs(class, 6 * SECOND, true).next().unwrap());
    }
}

fn soak_seeds() -> (u64, u64) {
    let seeds = std::env::var("SOAK_SEEDS").unwrap_or_else(|_| "1000,50".into());
    let (first, count) = seeds.split_once(',').expect("FIRST,COUNT");
    (first.parse().unwrap(), count.parse().unwrap())
}

/// `SOAK_SEEDS=FIRST,COUNT`: so many seeds of each class.
#[test]
#[ignore = "it takes hours"]
fn thousands_of_seeds() {
    let (first, count) = soak_seeds();
    let (mut failed, mut total) = (0, 0);
    println!(
        "class, bounds: seeds, deliveries, copies, bytes of reports, ms of slow authors p50 p99, lost"
    );
    for (class, is_default) in CLASSES.iter().flat_map(|it| [(it, false), (it, true)]) {
        let (mut sum, mut ages) = (Outcome::default(), Vec::new());
        for seed in first..first + count {
            total += 1;
            let outcome = World::new(class, seed, 5 * SECOND, is_default).run(false);
            if let Some(wrong) = outcome.wrong.first() {
                failed += 1;
                println!("WRONG {class} {seed}, default {is_default}: {}: {wrong}", outcome.what);
            }
            sum.deliveries += outcome.deliveries;
            sum.copies += outcome.copies;
            sum.report_bytes += outcome.report_bytes;
            sum.lost += outcome.lost;
            ages.extend(outcome.slow_ages);
        }
        ages.sort_unstable();
        let at = |part: usize| ages.get(ages.len().saturating_sub(1) * part / 100).unwrap_or(&0);
        let each = sum.deliveries.max(1) as f64;
        println!(
            "{class}, {}: {count}, {}, {:.3}, {:.0}, {} {}, {}",
            if is_default { "default" } else { "small" },
            sum.deliveries,
            sum.copies as f64 / each,
            sum.report_bytes as f64 / each,
            at(50),
            at(99),
            sum.lost,
        );
    }
    assert_eq!(failed, 0, "of {total} runs");
}

/// Gives a relay a message, whose signature holds.
fn take(now: u64, relay: &mut Machine, from: usize, message: Message) -> Taken {
    let is_wanted = relay.wants(now, from, &message);
    relay.message(now, Some(from), message, is_wanted).unwrap()
}

/// Its sender is told, and may send it again.
#[test]
fn what_is_left_out_is_reported() {
    let mut relay = machine(&Bounds::default(), 0, 3, None);
    relay.connect(0, 1, 100);
    while relay.frame(0, 1).is_some() {}
    let message = Message { author: 2, stamp: 9, prev: 8, bytes: vec![].into() };
    assert_eq!(take(1, &mut relay, 1, message), Taken::LeftOut);
    (2..100).for_each(|it| relay.timeout(it * 10_000));
    let Some(Frame::Report(2, report)) = relay.frame(SECOND, 1) else { panic!("no report") };
    assert!(report.done == 1 && !report.coverage.has(9));
}

/// A peer replays what an author said long ago to a relay that has forgotten it.
#[test]
fn who_replays_old_messages_takes_nothing_of_their_authors_rate() {
    let message =
        |stamp| Message { author: 1, stamp, prev: stamp - 1, bytes: vec![0; 60_000].into() };
    let mut relay = machine(&Bounds::default(), 0, 3, None);
    relay.connect(0, 1, 100);
    relay.connect(0, 2, 100);
    assert_eq!(take(0, &mut relay, 1, message(900)), Taken::New);
    let level = relay.log(1).bucket.level(0);
    assert!((1..700).all(|it| take(0, &mut relay, 2, message(it)) == Taken::LeftOut));
    assert_eq!(relay.log(1).bucket.level(0), level);
    assert_eq!(take(0, &mut relay, 1, message(901)), Taken::New);
}

/// A hostile author lets its messages come over another peer first. Whom they were asked of once broke the rules by bringing them.
#[test]
fn who_brings_what_came_meanwhile_breaks_no_rule() {
    let mut relay = machine(&Bounds::default(), 0, 4, None);
    (1..4).for_each(|it| relay.connect(0, it, 100));
    for stamp in 1..=4_000 {
        let message = Message { author: 3, stamp, prev: stamp - 1, bytes: vec![0; 900].into() };
        let from = if stamp == 1 { 3 } else { 2 };
        assert_eq!(take(stamp * 1_000, &mut relay, from, message.clone()), Taken::New);
        assert_eq!(take(stamp * 1_000, &mut relay, 1, message), Taken::Again);
    }
}

fn hand(now: u64, relay: &mut Machine, from: usize, frame: Frame) {
    match frame {
        Frame::Report(author, report) => relay.report(now, from, author, report),
        Frame::Message(it) => drop(take(now, relay, from, it)),
    }
}

/// Carries all frames between relays, whose places are their numbers.
fn meet(now: u64, relays: &mut [&mut Machine]) {
    let ways = (0..relays.len()).flat_map(|from| (0..relays.len()).map(move |to| (from, to)));
    let ways: Vec<_> = ways.filter(|(from, to)| from != to).collect();
    let mut is_quiet = false;
    while !is_quiet {
        is_quiet = true;
        for &(from, to) in &ways {
            let Some(frame) = relays[from].frame(now, to) else { continue };
            is_quiet = false;
            hand(now, relays[to], from, frame);
        }
    }
}

/// The stamps that a relay lists of an author.
fn stamps(relay: &Machine, author: usize) -> Vec<u64> {
    relay.log(author).kept.iter().map(|it| it.stamp).collect()
}

fn publish(now: u64, clock: u64, machine: &mut Machine) -> (u64, u64) {
    let (prev, stamp) = machine.next_own(clock);
    machine.publish(now, prev, stamp, vec![0; 10].into());
    (prev, stamp)
}

#[test]
fn an_author_that_lost_its_journal_closes_nothing() {
    let bounds = Bounds::default();
    let (mut one, mut other) = (machine(&bounds, 0, 2, None), machine(&bounds, 1, 2, None));
    one.connect(0, 1, 100);
    other.connect(0, 0, 100);
    for it in 1..=5 {
        publish(it, 1_000 + it, &mut one);
    }
    meet(10, &mut [&mut one, &mut other]);
    assert!(stamps(&other, 0).into_iter().eq(1_001..=1_005));
    other.disconnect(20, 0);
    let mut one = machine(&bounds, 0, 2, None);
    one.connect(30, 1, 100);
    other.connect(30, 0, 100);
    // Its clock went back.
    assert_eq!(publish(30, 900, &mut one), (899, 900));
    meet(40, &mut [&mut one, &mut other]);
    assert_eq!(stamps(&one, 0), [900, 1_001, 1_002, 1_003, 1_004, 1_005]);
    assert_eq!(publish(50, 901, &mut one), (1_005, 1_006));
    meet(60, &mut [&mut one, &mut other]);
    assert_eq!(stamps(&other, 0), [900, 1_001, 1_002, 1_003, 1_004, 1_005, 1_006]);
}

/// A message of 10 bytes of author 0.
fn own(prev: u64, stamp: u64) -> Message {
    Message { author: 0, stamp, prev, bytes: vec![0; 10].into() }
}

/// An author that starts without its journal, or with an old one, waits until it has what its peers have of its log.
#[test]
fn an_author_uses_no_stamp_that_its_peers_have() {
    for old in [0, 1_002] {
        let past = |upto| Past {
            messages: (1_000..=upto).map(|it| own(it - 1, it)).collect(),
            ..Past::default()
        };
        let bounds = Bounds::default();
        let mut one = machine(&bounds, 0, 3, Some(vec![past(old)]));
        let mut other = machine(&bounds, 1, 3, Some(vec![past(1_005)]));
        let mut third = machine(&bounds, 2, 3, Some(vec![past(1_002)]));
        // A peer that has no more than it comes first, and then one that has more.
        for now in (0..100).map(|it| it * SECOND / 100) {
            for (at, node, peer) in [(0, 2, &mut third), (SECOND / 2, 1, &mut other)] {
                if now == at {
                    one.connect(now, node, 100);
                    peer.connect(now, 0, 100);
                }
            }
            assert!(now > SECOND / 2 || !one.may_publish(), "{old}");
            let mut relays = [&mut one, &mut other, &mut third];
            meet(now, &mut relays);
            relays.iter_mut().for_each(|it| it.timeout(now));
        }
        assert!(one.may_publish(), "{old}");
        // Its clock went back. The first message covers nothing that was said before.
        assert_eq!(publish(SECOND, 1_003, &mut one), (1_005, 1_006));
    }
}

/// Who claims more of an author's log than there is stops the author for a while only.
#[test]
fn who_claims_an_authors_future_does_not_stop_it() {
    let mut relay = machine(&Bounds::default(), 0, 3, None);
    (1..3).for_each(|it| relay.connect(0, it, 100));
    relay.report(0, 1, 0, Report::up_to(u64::MAX));
    relay.report(0, 1, 1, Report::up_to(0));
    relay.report(0, 2, 0, Report::up_to(0));
    relay.report(0, 2, 2, Report::up_to(0));
    assert!(!relay.may_publish());
    (0..601).for_each(|it| relay.timeout(it * SECOND / 100));
    assert!(relay.may_publish());
    assert_eq!(relay.next_own(1_000), (999, 1_000));
}

/// Input waits for the first peer. If none comes for long, half of a list is published for whoever comes later.
#[test]
fn nothing_is_published_for_nobody() {
    let mut relay = machine(&Bounds::default(), 0, 2, None);
    for now in 0..600 {
        relay.timeout(now * SECOND / 100);
        assert!(!relay.may_publish());
    }
    relay.timeout(6 * SECOND);
    let mut count = 0;
    while relay.may_publish() {
        count += 1;
        relay.publish(6 * SECOND, count - 1, count, vec![0; 100_000].into());
    }
    assert_eq!(count, (2 << 20) / 100_128 + 1);
    relay.connect(7 * SECOND, 1, 100);
    relay.report(7 * SECOND, 1, 0, Report::up_to(count));
    relay.report(7 * SECOND, 1, 1, Report::up_to(0));
    assert!(relay.may_publish());
}

/// How often a relay with a peer and many authors that are away has something to do in ten seconds.
#[test]
fn authors_that_are_away_cost_nothing() {
    let mut relays = [0, 1].map(|own| machine(&Bounds::default(), own, 500, None));
    let [one, other] = &mut relays;
    one.connect(0, 1, 100);
    other.connect(0, 0, 100);
    let mut steps = 0;
    for now in (0..10_000).map(|it| it * 1_000) {
        meet(now, &mut [one, other]);
        for relay in [&mut *one, &mut *other] {
            if relay.next_time() <= now {
                relay.timeout(now);
                steps += 1;
            }
        }
    }
    assert!(steps < 20, "{steps}");
}

/// A message of author 1 or 2 with a gap before it.
fn apart(author: usize, it: u64) -> Message {
    Message { author, stamp: 2 * it, prev: 2 * it - 1, bytes: vec![].into() }
}

#[test]
fn a_log_of_many_gaps_takes_all_that_comes_and_counts_what_is_lost() {
    let mut relay = machine(&Bounds::default(), 0, 2, None);
    relay.connect(0, 1, 100);
    (1..=100).for_each(|it| assert_eq!(take(it, &mut relay, 1, apart(1, it)), Taken::New));
    // The author's list begins behind what it has at 119.
    relay.report(SECOND, 1, 1, Report { since: 119, ..Report::up_to(200) });
    relay.timeout(3 * SECOND - 1);
    assert_eq!(relay.log(1).lost, 0);
    relay.timeout(3 * SECOND);
    // 59 gaps, of which the author can fill none any more.
    assert_eq!((relay.log(1).lost, relay.log(1).kept.len()), (59, 100));
}

/// The author is away when a peer shows that it cannot send something, and has a minute to come back with it.
#[test]
fn a_gap_that_its_author_may_fill_is_lost_after_a_minute() {
    let mut relay = machine(&Bounds::default(), 0, 3, None);
    relay.connect(0, 1, 100);
    relay.report(0, 1, 2, Report::up_to(200));
    while relay.frame(0, 1).is_some() {}
    (1..=63).for_each(|it| assert_eq!(take(it, &mut relay, 1, apart(2, it)), Taken::New));
    relay.report(100, 1, 2, Report { since: 199, ..Report::up_to(200) });
    for (now, lost) in [(59 * SECOND, 0), (61 * SECOND, 62)] {
        relay.timeout(now);
        assert_eq!(relay.log(2).lost, lost);
    }
}

/// Its author's messages until then would leave for it, and all that come after it.
#[test]
fn what_is_too_far_in_the_future_is_left_out() {
    let mut relay = machine(&Bounds::default(), 0, 2, None);
    relay.connect(0, 1, 100);
    relay.set_latest(1_000);
    let message = |stamp| Message { author: 1, stamp, prev: stamp - 1, bytes: vec![].into() };
    for (stamp, taken) in [(1_000, Taken::New), (1_001, Taken::LeftOut), (999, Taken::New)] {
        assert_eq!(take(0, &mut relay, 1, message(stamp)), taken);
    }
    relay.set_latest(1_001);
    assert_eq!(take(0, &mut relay, 1, message(1_001)), Taken::New);
}

/// A peer brings each second message of an author, over which gaps were once closed by force.
#[test]
fn who_brings_a_part_in_any_order_keeps_nothing_away() {
    const ALL: u64 = 400;
    let message = |stamp| Message { author: 1, stamp, prev: stamp - 1, bytes: vec![0; 90].into() };
    for has_room in [false, true] {
        let past = Past { messages: (1..=ALL).map(message).collect(), ..Past::default() };
        let mut author = machine(&Bounds::default(), 1, 3, Some(vec![Past::default(), past]));
        let mut relay = machine(&Bounds::default(), 0, 3, None);
        relay.connect(0, 2, 100);
        if has_room {
            // It shows all, and is asked.
            relay.report(0, 2, 1, Report::up_to(ALL));
            while relay.frame(0, 2).is_some() {}
        }
        for stamp in (2..=ALL).step_by(2) {
            take(stamp, &mut relay, 2, message(stamp));
        }
        relay.connect(SECOND, 1, 100);
        author.connect(SECOND, 0, 100);
        for now in (1..200).map(|it| SECOND + it * 10_000) {
            while let Some(frame) = relay.frame(now, 1) {
                if let Frame::Report(of, report) = frame {
                    author.report(now, 0, of, report);
                }
            }
            while let Some(frame) = author.frame(now, 0) {
                hand(now, &mut relay, 1, frame);
            }
            relay.timeout(now);
            author.timeout(now);
        }
        assert!(stamps(&relay, 1).into_iter().eq(1..=ALL), "room {has_room}");
    }
}

/// A log of which nothing new comes any more.
#[test]
fn who_lists_an_author_late_gets_what_its_peers_have() {
    let bytes = vec![0; 900];
    let message =
        |stamp| Message { author: 2, stamp, prev: stamp - 1, bytes: bytes.clone().into() };
    let log = Past { messages: (1..20).map(message).collect(), ..Past::default() };
    let mut one = machine(&Bounds::default(), 0, 2, None);
    let mut other =
        machine(&Bounds::default(), 1, 3, Some(vec![Past::default(), Past::default(), log]));
    one.connect(0, 1, 100);
    other.connect(0, 0, 100);
    // The first does not know the author that the other reports.
    while let Some(Frame::Report(author, report)) = other.frame(0, 0) {
        if author < 2 {
            one.report(0, 1, author, report);
        }
    }
    meet(0, &mut [&mut one, &mut other]);
    one.add(SECOND, Past::default());
    meet(SECOND, &mut [&mut one, &mut other]);
    assert!(stamps(&one, 2).into_iter().eq(1..=19));
}

/// The bounds by default, where no author is too fast.
fn fast() -> Bounds {
    Bounds { rate: 1 << 40, burst: 1 << 40, ..Bounds::default() }
}

/// Gives a relay 1 MB of author 2.
fn fill(now: u64, relay: &mut Machine) {
    for _ in 0..10 {
        let prev = relay.log(2).kept.top();
        let message = Message { author: 2, stamp: prev + 1, prev, bytes: vec![0; 100_000].into() };
        assert_eq!(take(now, relay, 2, message), Taken::New);
    }
    relay.timeout(now + 1);
}

#[test]
fn who_does_not_list_an_author_is_not_waited_for() {
    let mut relay = machine(&fast(), 0, 3, None);
    relay.connect(0, 1, 100);
    let reports = std::iter::from_fn(|| relay.frame(0, 1));
    let authors =
        reports.filter_map(|it| if let Frame::Report(it, _) = it { Some(it) } else { None });
    assert!(authors.eq([1, 2, 0]), "the own log is not reported last");
    (0..3).for_each(|it| fill(it, &mut relay));
    assert!(relay.log(2).is_held);
    relay.report(3, 1, 1, Report::up_to(0));
    assert!(!relay.log(2).is_held);
}

/// A peer whose connection broke counts as one that still has what it had, until it was waited for long enough. What it lacks then is
/// counted.
#[test]
fn who_loses_its_connection_is_waited_for() {
    let mut relay = machine(&fast(), 0, 3, None);
    relay.connect(0, 1, 100);
    relay.report(0, 1, 2, Report::up_to(0));
    relay.disconnect(1, 1);
    (1..4).for_each(|it| fill(it, &mut relay));
    assert!(relay.log(2).is_held && relay.left_behind(1) == 0);
    (1..800).for_each(|it| relay.timeout(it * SECOND / 100));
    assert!(!relay.log(2).is_held && relay.is_stalled(8 * SECOND, 1));
    (1..4).for_each(|it| fill(8 * SECOND + it, &mut relay));
    assert!(relay.left_behind(1) > 0);
}

/// A peer that reports nothing, and connects again and again, holds an author back once, and then a sixteenth of the time.
#[test]
fn who_reports_nothing_is_not_waited_for_again_and_again() {
    const STEP: u64 = SECOND / 100;
    let mut relay = machine(&fast(), 0, 3, None);
    let mut held = 0;
    for now in (0..12_000).map(|it| it * STEP) {
        if now % SECOND == 0 {
            relay.disconnect(now, 1);
            relay.connect(now, 1, 100);
        }
        relay.timeout(now);
        match relay.log(2).is_held {
            true => held += STEP,
            false => fill(now, &mut relay),
        }
    }
    assert!(held > 6 * SECOND, "it is not waited for");
    assert!(held <= 6 * SECOND + 12_000 * STEP / 16, "{held}");
}

/// A peer that takes no byte, and reports by turns that it has all and nothing, is waited for no longer than one that stands still,
/// whether it reports over one connection or many.
#[test]
fn who_reports_all_and_nothing_by_turns_is_waited_for_once() {
    const STEP: u64 = SECOND / 100;
    for is_anew in [false, true] {
        let (mut relay, mut held) = (machine(&fast(), 0, 3, None), 0);
        relay.connect(0, 1, 100);
        for now in (0..12_000).map(|it| it * STEP) {
            if now % (SECOND / 2) == 0 {
                if is_anew && now % SECOND == 0 {
                    relay.disconnect(now, 1);
                    relay.connect(now, 1, 100);
                }
                let top = relay.log(2).kept.top();
                let top = if now % SECOND == 0 { 0 } else { top };
                relay.report(now, 1, 2, Report::up_to(top));
            }
            relay.timeout(now);
            match relay.log(2).is_held {
                true => held += STEP,
                false => fill(now, &mut relay),
            }
        }
        assert!(held <= 6 * SECOND + 12_000 * STEP / 16, "{held}");
    }
}

/// Who claims a message and takes that back, or ends its connection, once it is asked for it, keeps nothing away that others bring.
#[test]
fn who_takes_a_claim_back_keeps_nothing_away() {
    for ends in [false, true] {
        let mut relay = machine(&Bounds::default(), 0, 4, None);
        relay.connect(0, 1, 100);
        relay.connect(0, 2, 100);
        let (mut had, mut latest) = (0, 0);
        for now in (1..1_000).map(|it| it * 10_000) {
            // The honest peer brings what it has, if it is asked; the other claims more, and never brings anything.
            let stamp = now / 10_000;
            relay.report(now, 1, 3, Report::up_to(stamp));
            relay.report(now, 2, 3, Report::up_to(stamp + 100));
            if relay.log(3).is_asked(2) {
                match ends {
                    true => {
                        relay.disconnect(now, 2);
                        relay.connect(now, 2, 100);
                    }
                    false => relay.report(now, 2, 3, Report::up_to(0)),
                }
            }
            (1..3).for_each(|it| while relay.frame(now, it).is_some() {});
            if relay.log(3).is_asked(1) {
                for stamp in had + 1..=stamp {
                    let bytes = vec![0; 90].into();
                    take(now, &mut relay, 1, Message { author: 3, stamp, prev: stamp - 1, bytes });
                }
                had = stamp;
            }
            latest = latest.max(stamp - had);
            relay.timeout(now);
        }
        // It is never waited for beyond what a peer has that was asked before.
        assert!(had > 990 && latest <= 5, "ends {ends}: {had} {latest}");
    }
}

/// Gives a relay those messages of author 4 that it lacks and a peer brings.
fn bring(now: u64, relay: &mut Machine, peer: usize, stamps: impl Iterator<Item = u64>) {
    for stamp in stamps {
        let message = Message { author: 4, stamp, prev: stamp - 1, bytes: vec![0; 900].into() };
        if relay.log(4).is_asked(peer) && !relay.log(4).kept.has(stamp) {
            assert_eq!(take(now, relay, peer, message), Taken::New);
        }
    }
}

/// Relay 0 with three peers, of which the first is asked first, and an author that is away.
fn with_three_peers() -> Machine {
    let mut relay = machine(&Bounds::default(), 0, 5, None);
    (1..4).for_each(|it| relay.connect(0, it, 100 * it as u64));
    relay
}

/// Each message that it brings is the one that is lacking, and in time for that. It once fed others for ever.
#[test]
fn who_brings_all_but_slowly_is_not_asked_alone() {
    let mut relay = with_three_peers();
    let mut came = 0;
    for now in (1..200).map(|it| it * 10_000) {
        relay.report(now, 1, 4, Report::up_to(400));
        relay.report(now, 2, 4, Report::up_to(400));
        (1..4).for_each(|it| while relay.frame(now, it).is_some() {});
        let top = relay.log(4).kept.top();
        if now % 20_000 == 0 {
            bring(now, &mut relay, 1, top + 1..=top + 1);
        }
        bring(now, &mut relay, 2, 1..=400);
        relay.timeout(now);
        came += if relay.log(4).kept.len() < 400 { 10_000 } else { 0 };
    }
    assert!(came < SECOND, "{came}");
    // Who brought the last of it is asked from now on.
    assert!(relay.log(4).is_asked(2) && !relay.log(4).is_asked(1));
}

/// Two peers that agreed upon what they do not bring.
#[test]
fn who_brings_all_but_one_keeps_nothing_away() {
    let mut relay = with_three_peers();
    let mut late = Vec::new();
    for stamp in 1..600 {
        let now = stamp * 10_000;
        (1..4).for_each(|it| relay.report(now, it, 4, Report::up_to(stamp)));
        (1..4).for_each(|it| while relay.frame(now, it).is_some() {});
        for peer in 1..3 {
            bring(now, &mut relay, peer, (1..=stamp).filter(|it| it % 50 > 0));
        }
        bring(now, &mut relay, 3, 1..=stamp);
        relay.timeout(now);
        let kept = &relay.log(4).kept;
        late.extend((50..=stamp).step_by(50).filter(|it| !kept.has(*it)).map(|it| stamp - it));
    }
    // The first is late, by half a second for each peer more. Who brought it is asked for the others.
    let kept = &relay.log(4).kept;
    assert!((1..600).all(|it| kept.has(it)), "{:?}", stamps(&relay, 4));
    assert!(late.iter().max() <= Some(&102) && late.len() < 160, "{late:?}");
}

/// Each lacks more of the other's list than it waits for, and both are held: a gap is filled all the same, at once.
#[test]
fn relays_that_lack_each_others_messages_do_not_wait_for_each_other() {
    let bounds = Bounds { behind: 2 << 10, room: 64 << 10, ..Bounds::default() };
    let past = |parts: &[std::ops::Range<u64>]| {
        let stamps = parts.iter().cloned().flatten();
        let message =
            |stamp| Message { author: 2, stamp, prev: stamp - 1, bytes: vec![0; 900].into() };
        let log = Past { messages: stamps.map(message).collect(), ..Past::default() };
        Some(vec![Past::default(), Past::default(), log])
    };
    let mut one = machine(&bounds, 0, 3, past(&[1..20, 40..60]));
    let mut other = machine(&bounds, 1, 3, past(&[20..40, 60..61]));
    one.connect(0, 1, 0);
    other.connect(0, 0, 0);
    // No time passes, so no patience ends.
    meet(0, &mut [&mut one, &mut other]);
    for now in 1..100 {
        one.timeout(now);
        other.timeout(now);
        meet(now, &mut [&mut one, &mut other]);
    }
    assert!(stamps(&one, 2).into_iter().eq(1..=60));
    assert!(stamps(&other, 2).into_iter().eq(1..=60));
}

/// Of who ignores its room, what is above its author's rate is left out.
#[test]
fn an_author_is_taken_at_its_rate_whatever_it_sends() {
    for (rate, least, len, cost) in
        [(1 << 20, 0, 10_000, 0), (1 << 20, 10_486, 10, 0), (1 << 20, 0, 10, 10_348)]
    {
        let bounds = Bounds { rate, burst: 512 << 10, room: 64 << 10, least, ..Bounds::default() };
        let mut machine = machine(&bounds, 0, 3, None);
        machine.connect(0, 1, 100);
        machine.connect(0, 2, 100);
        let (mut now, mut taken) = (0, 0_u64);
        while now < 10 * SECOND {
            let (stamp, peer) = (taken + 1, 2 - taken as usize % 2);
            let message = Message { author: 2, stamp, prev: taken, bytes: vec![0; len].into() };
            match take(now, &mut machine, peer, message) {
                Taken::New => {
                    machine.charge(now, 2, cost);
                    taken += 1;
                }
                it => assert_eq!(it, Taken::LeftOut),
            }
            now += 500;
        }
        // Ten seconds and the burst, of some 10,000 bytes each.
        assert!((1_050..=1_200).contains(&taken), "{taken}");
    }
}

/// A log of author `author`: of each of its messages a relay has had none, has had it, or can still send it.
fn some_of(random: &mut Random, author: usize) -> Vec<Past> {
    let mut past = vec![Past::default(); author + 1];
    let log = &mut past[author];
    for stamp in 1..=random.between(1, 40) {
        let message = Message { author, stamp, prev: stamp - 1, bytes: vec![0; 900].into() };
        match random.below(4) {
            0 => {}
            1 => log.floor = stamp,
            _ => log.messages.push(message),
        }
    }
    past
}

/// Relays never wait in a circle: from any state each has at last what its neighbours can send, though nobody
/// ever loses patience.
#[test]
fn no_relays_wait_in_a_circle() {
    let bounds = Bounds { behind: 2 << 10, patience: 1_000 * SECOND, ..Bounds::default() };
    for seed in 0..150 {
        let mut random = Random::new(seed);
        let count = random.between(2, 5) as usize;
        let relay = |own| machine(&bounds, own, count + 1, Some(some_of(&mut random, count)));
        let mut relays: Vec<Machine> = (0..count).map(relay).collect();
        let is_row = random.chance(50);
        let near = |one: usize, other: usize| one != other && (!is_row || one.abs_diff(other) == 1);
        for (one, relay) in relays.iter_mut().enumerate() {
            (0..count).filter(|it| near(one, *it)).for_each(|it| relay.connect(0, it, 100));
        }
        for now in (0..400).map(|it| it * SECOND / 50) {
            relays.iter_mut().for_each(|it| it.timeout(now));
            meet(now, &mut relays.iter_mut().collect::<Vec<_>>());
        }
        for (one, other) in (0..count).flat_map(|one| (0..count).map(move |it| (one, it))) {
            let kept = &relays[other].log(count).kept;
            let lacks = stamps(&relays[one], count).into_iter().filter(|it| !kept.has(*it)).count();
            assert!(lacks == 0 || !near(one, other), "{seed}: {other} of {count} lacks {lacks}");
        }
    }
}
