//! The classes of runs, and what a seed makes of them.

use crate::world::{Event, FULL, Kind, Link, Node, Random, World, machine};
use broadcast_relay::gossip::{Bounds, Message, Past, SECOND};
use bytes::Bytes;

/// Those without hostile relays first.
pub const CLASSES: [&str; 30] = [
    "calm",
    "slow",
    "pause",
    "late",
    "busy",
    "rows",
    "breaks",
    "crash",
    "heavy",
    "gaps",
    "big",
    "long",
    "flood",
    "silent",
    "mute",
    "sly",
    "drip",
    "lag",
    "empty",
    "again",
    "creep",
    "gappy",
    "contradict",
    "mixed",
    "swarm",
    "part",
    "push",
    "turns",
    "tenth",
    "pact",
];
pub const HONEST: usize = 12;

const HOSTILE: [Kind; 16] = [
    Kind::Silent,
    Kind::Mute,
    Kind::Sly,
    Kind::Drip,
    Kind::Lag,
    Kind::Empty,
    Kind::Again,
    Kind::Creep,
    Kind::Gappy,
    Kind::Contradict,
    Kind::Flood,
    Kind::Part,
    Kind::Push,
    Kind::Turns,
    Kind::Tenth,
    Kind::Pact,
];

/// How long bodies are.
#[derive(Clone, Copy, Default)]
pub struct Sizes {
    is_mixed: bool,
    is_big: bool,
}

impl Sizes {
    pub fn draw(self, random: &mut Random) -> u64 {
        match self {
            Sizes { is_big: true, .. } if random.chance(5) => 1_000 * random.between(1, 300),
            Sizes { is_mixed: true, .. } => 60 + random.below(4_000),
            _ => 1_000,
        }
    }
}

/// What is the same during a run.
#[derive(Default)]
pub struct Scene {
    /// When input stops, when that and all faults are past, and when the run ends.
    pub stop: u64,
    pub quiet: u64,
    pub end: u64,
    /// Nothing breaks or crashes, so nothing of an honest author may be lost.
    pub is_strict: bool,
    /// A relay that stands still is connected to, since the other side does not know it.
    pub is_late: bool,
    pub sizes: Sizes,
}

type Edges = Vec<(usize, usize)>;

fn mesh(count: usize) -> Edges {
    (0..count).flat_map(|a| (a + 1..count).map(move |b| (a, b))).collect()
}

fn tree_and_more(random: &mut Random) -> (String, usize, Edges) {
    let count = random.between(5, 12) as usize;
    let mut edges: Edges = (1..count).map(|b| (random.below(b as u64) as usize, b)).collect();
    for _ in 0..random.between(count as u64, 2 * count as u64) {
        let (a, b) = (random.below(count as u64) as usize, random.below(count as u64) as usize);
        let edge = (a.min(b), a.max(b));
        if a != b && !edges.contains(&edge) {
            edges.push(edge);
        }
    }
    (format!("random{count}"), count, edges)
}

fn topology(random: &mut Random, class: &str) -> (String, usize, Edges) {
    let pick = match class {
        "rows" => 5 + random.below(2),
        "late" => 3 + random.below(6),
        _ if !CLASSES[..HONEST].contains(&class) => [0, 1, 2, 4, 7, 8][random.below(6) as usize],
        _ => random.below(9),
    };
    let row = |count: usize| (1..count).map(|b| (b - 1, b)).collect();
    let (name, count, edges) = match pick {
        0 => ("mesh4", 4, mesh(4)),
        1 => ("mesh8", 8, mesh(8)),
        2 => ("mesh16", 16, mesh(16)),
        3 => ("ring8", 8, (0..8).map(|a| (a, (a + 1) % 8)).collect()),
        4 => ("ring8x2", 8, (0..8).flat_map(|a| [(a, (a + 1) % 8), (a, (a + 2) % 8)]).collect()),
        5 => ("row3", 3, row(3)),
        6 => ("row6", 6, row(6)),
        _ => return tree_and_more(random),
    };
    (name.into(), count, edges)
}

/// Smaller bounds than those by default, so that they are met sooner.
fn small_bounds(class: &str, random: &mut Random) -> Bounds {
    let mut bounds = Bounds {
        list: 1 << 20,
        behind: 512 << 10,
        room: 64 << 10,
        rate: 2 << 20,
        burst: 1 << 20,
        pace: 16 << 10,
        largest: 16 << 10,
        ..Bounds::default()
    };
    match class {
        "gaps" => {
            bounds.behind = random.between(1, 100) << 10;
            bounds.room = random.between(1, 64) << 10;
        }
        "big" => (bounds.list, bounds.largest) = (3 << 20, 512 << 10),
        _ => {}
    }
    bounds
}

impl World {
    /// Makes the run of a class and a seed, with input for so long, and with the default bounds if asked for.
    pub fn new(class: &str, seed: u64, stop: u64, is_default: bool) -> World {
        let mut random = Random::new(seed);
        let (name, count, edges) = topology(&mut random, class);
        let mut bounds = small_bounds(class, &mut random);
        if is_default {
            bounds = Bounds { largest: 512 << 10, ..Bounds::default() };
        }
        let more =
            if ["gaps", "creep", "swarm", "mixed", "heavy"].contains(&class) { 100 } else { 25 };
        let end = stop + more * SECOND;
        if class == "long" {
            bounds.somebody = 10 * SECOND;
        }
        let scene = Scene { stop, quiet: stop, end, is_strict: true, ..Scene::default() };
        let mut world = World::empty(scene, bounds, random, count);
        world.outcome.what = format!("seed {seed}, {name}");
        world.join(class, &edges);
        world.draw_authors(class);
        let mut events = world.draw_hostile(class);
        events.extend(world.draw_faults(class, &edges));
        world.scene.sizes = Sizes { is_mixed: world.random.chance(40), is_big: class == "big" };
        for own in 0..count {
            let past = (class == "gaps").then(|| world.past(own));
            world.nodes[own].machine = Some(machine(&world.bounds, own, count, past));
            let time = 300_000 + world.random.below(20_000);
            world.at(time, Event::Input(own));
        }
        for (one, other) in edges {
            let time = world.random.below(50_000);
            world.at(time, Event::Connect(one, other));
        }
        for (time, event) in events {
            // No fault is longer.
            let longest = if class == "long" { 14 } else { 4 };
            world.scene.quiet = world.scene.quiet.max(time + longest * SECOND);
            world.at(time, event);
        }
        world
    }

    fn join(&mut self, class: &str, edges: &Edges) {
        for &(a, b) in edges {
            // Busy ones are relays of one machine.
            let delay = self.random.between(1, 100) * if class == "busy" { 10 } else { 1_000 };
            for (from, to) in [(a, b), (b, a)] {
                self.near[from].push(to);
                let link = Link::new(delay, self.random.between(400_000, 4_000_000));
                self.links.insert((from, to), link);
            }
        }
    }

    /// Most relays publish 50 messages a second, and one or two as fast as they may.
    fn draw_authors(&mut self, class: &str) {
        let count = self.nodes.len() as u64;
        for node in &mut self.nodes {
            node.rate = if self.random.chance(70) { 50 } else { 0 };
        }
        let full = match class {
            "slow" => 0,
            "gappy" | "contradict" => self.random.below(2),
            _ => self.random.between(1, 2),
        };
        for _ in 0..full {
            let author = self.random.below(count) as usize;
            self.nodes[author].rate = FULL;
        }
        match class {
            "rows" | "late" => self.nodes[0].rate = FULL,
            "heavy" => self.nodes.iter_mut().for_each(|it| it.rate = FULL),
            "gaps" => self.nodes[0].rate = 0,
            _ => {}
        }
    }

    /// Makes some relays hostile, as long as the others are joined without them.
    fn draw_hostile(&mut self, class: &str) -> Vec<(u64, Event)> {
        let count = self.nodes.len() as u64;
        let kind = HOSTILE.into_iter().find(|it| format!("{it:?}").to_lowercase() == class);
        let many = match class {
            "swarm" => count * 3 / 4,
            // At least two, if the others are joined without them.
            "pact" => 2 + count / 4,
            "mixed" if count > 3 => self.random.between(1, (count / 4).max(1)),
            _ if kind.is_some() => self.random.between(1, (count / 4).max(1)),
            _ => 0,
        };
        let mut events = Vec::new();
        for _ in 0..many {
            let number = self.random.below(count) as usize;
            if !self.nodes[number].is_honest() {
                continue;
            }
            let kind =
                kind.unwrap_or_else(|| HOSTILE[self.random.below(HOSTILE.len() as u64) as usize]);
            self.nodes[number].kind = kind;
            if !are_joined(&self.nodes, &self.near) {
                self.nodes[number].kind = Kind::Honest;
                continue;
            }
            self.outcome.what += &format!(", {number} {kind:?}");
            match kind {
                Kind::Flood => self.nodes[number].rate = FULL,
                Kind::Part | Kind::Push => events.push((SECOND / 2, Event::Push(number))),
                Kind::Silent => events.push((SECOND, Event::Leave(number))),
                Kind::Gappy | Kind::Contradict => {
                    self.nodes[number].rate = 0;
                    events.push((0, Event::Raw(number)));
                }
                _ => {}
            }
        }
        events
    }

    fn draw_honest(&mut self) -> usize {
        loop {
            let number = self.random.below(self.nodes.len() as u64) as usize;
            if self.nodes[number].is_honest() {
                return number;
            }
        }
    }

    fn draw_faults(&mut self, class: &str, edges: &Edges) -> Vec<(u64, Event)> {
        let mut events = Vec::new();
        match class {
            "rows" => events.push((2 * SECOND, Event::Pause(self.nodes.len() - 1, 4 * SECOND))),
            "late" => {
                self.scene.is_late = true;
                events.push((0, Event::Pause(self.draw_honest(), 4 * SECOND)));
            }
            "busy" => events.extend(self.draw_turns()),
            "long" => {
                // Beyond the patience of all others, so what fast authors say meanwhile is lost there.
                (self.scene.is_strict, self.scene.stop) = (false, 20 * SECOND);
                (self.scene.quiet, self.scene.end) = (20 * SECOND, 50 * SECOND);
                let node = self.draw_honest();
                events.push((2 * SECOND, Event::Pause(node, 14 * SECOND)));
                let near = edges.iter().filter(|it| it.0 == node || it.1 == node);
                // A silent connection ends.
                events.extend(near.map(|it| (12 * SECOND, Event::Break(it.0, it.1, SECOND))));
            }
            _ => {}
        }
        if class == "pause" || (class == "mixed" && self.random.chance(50)) {
            for _ in 0..self.random.between(1, 2) {
                let (node, time) = (self.draw_honest(), self.random.between(1, 6) * SECOND);
                self.outcome.what += &format!(", {node} pauses at {} s", time / SECOND);
                events.push((time, Event::Pause(node, 4 * SECOND)));
            }
        }
        if class == "breaks" || (class == "mixed" && self.random.chance(50)) {
            self.scene.is_strict &= class == "breaks";
            for _ in 0..self.random.between(1, 5) {
                let (a, b) = edges[self.random.below(edges.len() as u64) as usize];
                let (time, span) =
                    (self.random.between(500, 8_000), self.random.between(1, 3_000) * 1_000);
                self.outcome.what += &format!(", {a}-{b} breaks at {time} ms");
                events.push((time * 1_000, Event::Break(a, b, span)));
            }
        }
        if class == "crash" || (class == "mixed" && self.random.chance(50)) {
            self.scene.is_strict = false;
            for _ in 0..self.random.between(1, 2) {
                let node = self.draw_honest();
                let (time, has_journal) = (self.random.between(500, 7_000), self.random.chance(50));
                let span = self.random.between(200, 3_000) * 1_000;
                self.outcome.what += &format!(", {node} crashes at {time} ms, {has_journal}");
                events.push((time * 1_000, Event::Crash { node, has_journal, span }));
            }
        }
        events
    }

    /// Each relay stands still for a moment again and again, as where processors have other work.
    fn draw_turns(&mut self) -> Vec<(u64, Event)> {
        let mut events = Vec::new();
        for node in 0..self.nodes.len() {
            // Once all are connected: nobody waits for who is not.
            let mut time = self.random.between(SECOND / 4, SECOND);
            while time < self.scene.stop {
                let span = self.random.between(1, 60) * 1_000;
                events.push((time, Event::Pause(node, span)));
                time += span + self.random.between(1, 60) * 1_000;
            }
        }
        events
    }

    /// A part of the log of author 0: all up to a floor was had, and some runs are on the list.
    fn past(&mut self, own: usize) -> Vec<Past> {
        let mut past = vec![Past::default(); self.nodes.len()];
        let bytes = Bytes::from(vec![1; 1_000]);
        let floor = if self.random.chance(30) { self.random.below(300) } else { 0 };
        let seen = &mut self.nodes[own].seen;
        seen.extend((1..=floor).map(|it| ((0, 1_000 * it), 0)));
        for _ in 0..self.random.between(0, 4) {
            let first = self.random.below(600);
            let last = first + 1 + self.random.below(600 - first);
            for place in first..last {
                let stamp = 1_000 * (place + 1);
                let is_new = self.nodes[own].seen.insert((0, stamp), 0).is_none();
                if is_new {
                    let bytes = bytes.clone();
                    past[0].messages.push(Message { author: 0, stamp, prev: stamp - 1_000, bytes });
                }
            }
        }
        past[0].floor = 1_000 * floor;
        past
    }
}

/// Whether all honest relays are joined by honest ones.
fn are_joined(nodes: &[Node], near: &[Vec<usize>]) -> bool {
    let Some(first) = nodes.iter().position(Node::is_honest) else { return false };
    let (mut seen, mut next) = (vec![false; nodes.len()], vec![first]);
    seen[first] = true;
    while let Some(node) = next.pop() {
        for &peer in &near[node] {
            if nodes[peer].is_honest() && !std::mem::replace(&mut seen[peer], true) {
                next.push(peer);
            }
        }
    }
    nodes.iter().zip(seen).all(|(node, seen)| seen || !node.is_honest())
}
