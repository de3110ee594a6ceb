//! A world of relays: connections with delay, bandwidth and a window; pauses, crashes, broken connections; hostile relays. All of it
//! follows from the class of a run and its seed.

use crate::model::Model;
use crate::scenes::Scene;
use crate::verdict::Outcome;
use broadcast_relay::gossip::{
    Bounds, Coverage, Frame, Machine, Malformed, NEVER, Past, SECOND, Taken,
};
use std::cmp::Reverse;
use std::collections::{BinaryHeap, HashMap, VecDeque};

/// How many bytes wait in a socket, and how many are on their way over a connection, at most.
const SOCKET: u64 = 16 << 10;
const WINDOW: u64 = 512 << 10;
/// The rate of an author that publishes as fast as it may.
pub const FULL: u64 = u64::MAX;

pub struct Random(u64);

impl Random {
    pub fn new(seed: u64) -> Random {
        Random(seed.wrapping_mul(0x9e37_79b9_7f4a_7c15) ^ 0xdead_beef_cafe)
    }

    pub fn next(&mut self) -> u64 {
        self.0 = self.0.wrapping_add(0x9e37_79b9_7f4a_7c15);
        let mut mixed = self.0;
        mixed = (mixed ^ (mixed >> 30)).wrapping_mul(0xbf58_476d_1ce4_e5b9);
        mixed = (mixed ^ (mixed >> 27)).wrapping_mul(0x94d0_49bb_1331_11eb);
        mixed ^ (mixed >> 31)
    }

    pub fn below(&mut self, bound: u64) -> u64 {
        self.next() % bound.max(1)
    }

    pub fn between(&mut self, least: u64, most: u64) -> u64 {
        least + self.below(most - least + 1)
    }

    pub fn chance(&mut self, percent: u64) -> bool {
        self.below(100) < percent
    }
}

#[derive(Clone, Copy, Debug, PartialEq, Eq)]
pub enum Kind {
    Honest,
    /// Sends nothing, and connects again each second.
    Silent,
    /// Reports everything, and brings nothing of others.
    Mute,
    /// Reports the truth, and brings nothing of others.
    Sly,
    /// Reports the truth, and brings one message of others a second.
    Drip,
    /// Reports for ever what it reported first.
    Lag,
    /// Always reports an empty coverage.
    Empty,
    /// Reports an old coverage for seven seconds, and the true one for one.
    Again,
    /// Takes some 2 kB each tenth of a second.
    Creep,
    /// An author with a gap between any two messages.
    Gappy,
    /// An author whose messages contradict each other.
    Contradict,
    /// Publishes without regard to others.
    Flood,
    /// Reports everything, and brings a half of what it has of others, unasked and in any order.
    Part,
    /// Brings all that it has of others, unasked, in any order, again and again.
    Push,
    /// Reports by turns everything and nothing, and brings nothing of others.
    Turns,
    /// Reports everything, and brings one of ten messages of others.
    Tenth,
    /// Brings all of others but some, which are the same for all of its kind.
    Pact,
    /// Is not there, as in the twin of a run.
    Absent,
}

pub struct Link {
    pub delay: u64,
    pub bandwidth: u64,
    /// When all that was sent has left.
    pub free: u64,
    /// The bytes on their way.
    pub transit: u64,
    pub is_up: bool,
    epoch: u64,
    has_pull: bool,
    /// When a hostile relay last brought something, and what it reports of each author since when.
    pub last_drip: u64,
    pub frozen: HashMap<usize, (u64, Coverage)>,
}

impl Link {
    pub fn new(delay: u64, bandwidth: u64) -> Link {
        Link {
            delay,
            bandwidth,
            free: 0,
            transit: 0,
            is_up: false,
            epoch: 0,
            has_pull: false,
            last_drip: 0,
            frozen: HashMap::new(),
        }
    }
}

struct Arrival {
    from: usize,
    epoch: u64,
    frame: Frame,
    wire: u64,
}

pub struct Node {
    pub kind: Kind,
    pub machine: Option<Machine>,
    /// What it has after a crash.
    journal: Option<Vec<Past>>,
    is_paused: bool,
    has_published: bool,
    wake: u64,
    inbox: VecDeque<Arrival>,
    /// Messages a second.
    pub rate: u64,
    is_blocked: bool,
    /// What it has delivered.
    pub seen: HashMap<(usize, u64), u64>,
    pub crashed: Vec<u64>,
    /// When it lost its journal last.
    pub forgot: u64,
    /// What its log is to answer, if that is compared.
    pub model: Option<Model>,
}

impl Node {
    pub fn new() -> Node {
        Node {
            kind: Kind::Honest,
            machine: None,
            journal: None,
            is_paused: false,
            has_published: false,
            wake: NEVER,
            inbox: VecDeque::new(),
            rate: 0,
            is_blocked: false,
            seen: HashMap::new(),
            crashed: Vec::new(),
            forgot: 0,
            model: None,
        }
    }

    /// It is not there.
    pub fn leave(&mut self) {
        (self.kind, self.rate) = (Kind::Absent, 0);
    }

    pub fn is_honest(&self) -> bool {
        self.kind == Kind::Honest
    }
}

pub enum Event {
    Arrive(usize, Box<ArrivalAt>),
    Pull(usize, usize),
    Wake(usize),
    Input(usize),
    Pause(usize, u64),
    Resume(usize),
    Break(usize, usize, u64),
    Connect(usize, usize),
    Crash { node: usize, has_journal: bool, span: u64 },
    Start(usize),
    Raw(usize),
    Leave(usize),
    Push(usize),
}

pub struct ArrivalAt(Arrival);

struct Timed(u64, u64, Event);

impl PartialEq for Timed {
    fn eq(&self, other: &Timed) -> bool {
        (self.0, self.1) == (other.0, other.1)
    }
}

impl Eq for Timed {}

impl PartialOrd for Timed {
    fn partial_cmp(&self, other: &Timed) -> Option<std::cmp::Ordering> {
        Some(self.cmp(other))
    }
}

impl Ord for Timed {
    fn cmp(&self, other: &Timed) -> std::cmp::Ordering {
        (self.0, self.1).cmp(&(other.0, other.1))
    }
}

pub struct World {
    pub now: u64,
    number: u64,
    queue: BinaryHeap<Reverse<Timed>>,
    pub nodes: Vec<Node>,
    pub links: HashMap<(usize, usize), Link>,
    pub near: Vec<Vec<usize>>,
    pub bounds: Bounds,
    pub random: Random,
    pub scene: Scene,
    pub born: HashMap<(usize, u64), u64>,
    pub outcome: Outcome,
}

/// A relay among `count`, with what it has from before.
pub fn machine(bounds: &Bounds, own: usize, count: usize, past: Option<Vec<Past>>) -> Machine {
    let mut machine = Machine::new(bounds.clone(), own, own as u64);
    let mut past = past.unwrap_or_default().into_iter();
    for _ in 0..count {
        machine.add(0, past.next().unwrap_or_default());
    }
    machine
}

impl World {
    pub fn empty(scene: Scene, bounds: Bounds, random: Random, count: usize) -> World {
        World {
            now: 0,
            number: 0,
            queue: BinaryHeap::new(),
            nodes: (0..count).map(|_| Node::new()).collect(),
            links: HashMap::new(),
            near: vec![Vec::new(); count],
            bounds,
            random,
            scene,
            born: HashMap::new(),
            outcome: Outcome::default(),
        }
    }

    pub fn at(&mut self, time: u64, event: Event) {
        self.number += 1;
        self.queue.push(Reverse(Timed(time, self.number, event)));
    }

    /// Runs to the end, or until nothing is lacking any more if it is hasty.
    pub fn run(mut self, is_hasty: bool) -> Outcome {
        let mut look = self.scene.quiet + SECOND;
        while let Some(Reverse(Timed(time, _, event))) = self.queue.pop() {
            if time > self.scene.end {
                break;
            }
            self.now = time;
            self.event(event);
            if is_hasty && time > look {
                look = time + SECOND;
                if self.faults().0.is_empty() {
                    break;
                }
            }
        }
        self.judge();
        self.outcome
    }

    fn event(&mut self, event: Event) {
        let now = self.now;
        match event {
            Event::Arrive(to, arrival) if self.nodes[to].is_paused => {
                self.nodes[to].inbox.push_back(arrival.0);
            }
            Event::Arrive(to, arrival) => {
                self.arrive(to, arrival.0);
                self.after(to);
            }
            Event::Pull(from, to) => {
                self.links.get_mut(&(from, to)).unwrap().has_pull = false;
                self.pull(from, to);
            }
            Event::Wake(node) => self.wake(node),
            Event::Input(node) => self.input(node),
            Event::Pause(node, span) => {
                self.nodes[node].is_paused = true;
                self.at(now + span, Event::Resume(node));
            }
            Event::Resume(node) => self.resume(node),
            Event::Break(one, other, span) => {
                self.cut(one, other);
                self.at(now + span, Event::Connect(one, other));
            }
            Event::Connect(one, other) => self.connect(one, other),
            Event::Crash { node, has_journal, span } => self.crash(node, has_journal, span),
            Event::Start(node) => self.start(node),
            Event::Raw(node) => self.raw(node),
            Event::Leave(node) => self.leave(node),
            Event::Push(node) => self.push(node),
        }
    }

    fn wake(&mut self, number: usize) {
        let node = &mut self.nodes[number];
        if node.wake <= self.now {
            node.wake = NEVER;
        }
        if let (false, Some(machine)) = (node.is_paused, &mut node.machine) {
            machine.timeout(self.now);
            self.after(number);
        }
    }

    fn resume(&mut self, number: usize) {
        self.nodes[number].is_paused = false;
        while let Some(arrival) = self.nodes[number].inbox.pop_front() {
            self.arrive(number, arrival);
        }
        if let Some(machine) = &mut self.nodes[number].machine {
            machine.timeout(self.now);
        }
        self.after(number);
    }

    pub fn connect(&mut self, one: usize, other: usize) {
        let is_down =
            |it: usize| self.nodes[it].machine.is_none() || self.nodes[it].kind == Kind::Absent;
        if is_down(one) || is_down(other) || self.links[&(one, other)].is_up {
            return;
        }
        let is_paused = |it: usize| self.nodes[it].is_paused && !self.scene.is_late;
        if is_paused(one) || is_paused(other) {
            return self.at(self.now + 100_000, Event::Connect(one, other));
        }
        for (from, to) in [(one, other), (other, one)] {
            let link = self.links.get_mut(&(from, to)).unwrap();
            (link.is_up, link.transit, link.free) = (true, 0, self.now);
            let round_trip = 2 * link.delay;
            self.nodes[from].machine.as_mut().unwrap().connect(self.now, to, round_trip);
            self.nodes[from].model.iter_mut().for_each(|it| it.connect(to));
        }
        self.after(one);
        self.after(other);
    }

    pub fn cut(&mut self, one: usize, other: usize) {
        if !self.links[&(one, other)].is_up {
            return;
        }
        for (from, to) in [(one, other), (other, one)] {
            let link = self.links.get_mut(&(from, to)).unwrap();
            link.is_up = false;
            link.epoch += 1;
            link.frozen.clear();
            if let Some(machine) = &mut self.nodes[from].machine {
                machine.disconnect(self.now, to);
            }
            self.after(from);
        }
    }

    fn crash(&mut self, number: usize, has_journal: bool, span: u64) {
        if self.nodes[number].machine.is_none() || self.nodes[number].is_paused {
            return;
        }
        for peer in self.near[number].clone() {
            self.cut(number, peer);
        }
        let count = self.nodes.len();
        let node = &mut self.nodes[number];
        let machine = node.machine.take().unwrap();
        // An own message that came back from a peer is not in the journal.
        let is_kept = |author: usize| author != number || node.has_published;
        let past = |author: usize| match is_kept(author) {
            true => Past {
                floor: machine.log(author).kept.floor(),
                messages: machine.log(author).kept.iter().collect(),
            },
            false => Past::default(),
        };
        node.journal = has_journal.then(|| (0..count).map(past).collect());
        node.crashed.push(self.now);
        if !has_journal || !node.has_published {
            let author = has_journal.then_some(number);
            node.model.iter_mut().for_each(|it| it.forget(author));
        }
        if !has_journal {
            node.seen.clear();
            node.forgot = self.now;
        }
        self.at(self.now + span, Event::Start(number));
    }

    fn start(&mut self, number: usize) {
        let (now, count) = (self.now, self.nodes.len());
        let node = &mut self.nodes[number];
        node.has_published &= node.journal.is_some();
        node.machine = Some(machine(&self.bounds, number, count, node.journal.take()));
        node.wake = NEVER;
        let was_blocked = std::mem::take(&mut node.is_blocked);
        for peer in self.near[number].clone() {
            let time = now + self.random.below(200_000);
            self.at(time, Event::Connect(number.min(peer), number.max(peer)));
        }
        if was_blocked {
            self.at(now + 1_000, Event::Input(number));
        }
    }

    fn arrive(&mut self, to: usize, Arrival { from, epoch, frame, wire }: Arrival) {
        let now = self.now;
        let link = self.links.get_mut(&(from, to)).unwrap();
        if link.epoch != epoch || !link.is_up {
            return;
        }
        link.transit -= wire.min(link.transit);
        let delay = link.delay;
        if !link.has_pull {
            link.has_pull = true;
            self.at(now + delay, Event::Pull(from, to));
        }
        let is_honest = self.nodes[to].is_honest();
        if let Frame::Report(..) = frame
            && is_honest
        {
            self.outcome.report_bytes += wire;
        }
        if let Err(Malformed) = self.take(from, to, frame) {
            if self.nodes[from].is_honest() && is_honest {
                let why = format!("{from} broke the rules at {to}, {} ms", now / 1_000);
                self.outcome.wrong.push(why);
            }
            self.cut(from, to);
            self.at(now + SECOND, Event::Connect(from.min(to), from.max(to)));
        }
    }

    /// Hands a frame to a relay.
    fn take(&mut self, from: usize, to: usize, frame: Frame) -> Result<(), Malformed> {
        let now = self.now;
        let is_honest = self.nodes[to].is_honest();
        let are_honest = is_honest && self.nodes[from].is_honest();
        let Node { machine, model, .. } = &mut self.nodes[to];
        let machine = machine.as_mut().unwrap();
        match frame {
            Frame::Report(author, report) => {
                let kept = &machine.log(author).kept;
                model.iter_mut().for_each(|it| it.hear(from, author, &report, kept));
                machine.report(now, from, author, report);
            }
            Frame::Message(message) => {
                let id = (message.author, message.stamp);
                let (prev, len) = (message.prev, message.bytes.len());
                let is_wanted = machine.wants(now, from, &message);
                let taken = machine.message(now, Some(from), message, is_wanted)?;
                if let Some(model) = model {
                    if taken == Taken::New {
                        model.note(id.0, prev, id.1, len);
                        model.judge_log(id.0, &machine.log(id.0).kept);
                    }
                    if taken != Taken::LeftOut {
                        model.bring(from, id.0, id.1);
                    }
                }
                self.outcome.copies += u64::from(are_honest && self.nodes[id.0].is_honest());
                if is_honest && taken == Taken::New {
                    self.deliver(to, id);
                }
            }
        }
        Ok(())
    }

    fn deliver(&mut self, node: usize, id: (usize, u64)) {
        if self.nodes[node].seen.insert(id, self.now).is_some() {
            self.outcome.wrong.push(format!("{id:?} was delivered twice at {node}"));
        }
        if id.0 != node && self.nodes[id.0].is_honest() {
            self.outcome.deliveries += 1;
            let age = self.now - self.born.get(&id).copied().unwrap_or(self.now);
            self.outcome.note_age(self.nodes[id.0].rate == FULL, age);
        }
    }

    /// Does what is to be done after anything that a relay did.
    fn after(&mut self, number: usize) {
        let now = self.now;
        let node = &mut self.nodes[number];
        let Some(machine) = node.machine.as_mut().filter(|_| !node.is_paused) else { return };
        let next = machine.next_time();
        if next < node.wake {
            node.wake = next.max(now);
            self.at(next.max(now), Event::Wake(number));
        }
        for place in 0..self.near[number].len() {
            let to = self.near[number][place];
            if !self.links[&(number, to)].has_pull {
                self.pull(number, to);
            }
        }
        let node = &mut self.nodes[number];
        if node.is_blocked && node.machine.as_ref().unwrap().may_publish() {
            node.is_blocked = false;
            self.at(now, Event::Input(number));
        }
    }

    /// Sends what a connection can carry now.
    fn pull(&mut self, from: usize, to: usize) {
        let now = self.now;
        if self.nodes[from].is_paused || self.nodes[from].machine.is_none() {
            return;
        }
        loop {
            let link = self.links.get_mut(&(from, to)).unwrap();
            if !link.is_up || link.transit > WINDOW {
                return;
            }
            let backlog = link.free.saturating_sub(now) * link.bandwidth / SECOND;
            if backlog > SOCKET {
                let time = now + (backlog - SOCKET / 2) * SECOND / link.bandwidth;
                if !std::mem::replace(&mut link.has_pull, true) {
                    self.at(time, Event::Pull(from, to));
                }
                return;
            }
            let Node { machine, model, .. } = &mut self.nodes[from];
            let machine = machine.as_mut().unwrap();
            let Some(frame) = machine.frame(now, to) else { return };
            if let (Some(model), Frame::Report(author, _)) = (&mut *model, &frame) {
                model.judge_frame(to, &frame, &machine.log(*author).kept);
            }
            if let (Some(model), Frame::Message(it)) = (model, &frame) {
                model.judge_frame(to, &frame, &machine.log(it.author).kept);
            }
            if let Some(frame) = self.bend(from, to, frame) {
                self.send(from, to, frame);
            }
        }
    }

    pub fn send(&mut self, from: usize, to: usize, frame: Frame) {
        let wire = match &frame {
            Frame::Report(_, report) => 26 + 16 * report.coverage.spans().len() as u64,
            Frame::Message(message) => 96 + message.bytes.len() as u64,
        };
        let link = self.links.get_mut(&(from, to)).unwrap();
        link.free = link.free.max(self.now) + wire * SECOND / link.bandwidth + 1;
        link.transit += wire;
        let (time, epoch) = (link.free + link.delay, link.epoch);
        let arrival = Box::new(ArrivalAt(Arrival { from, epoch, frame, wire }));
        self.at(time, Event::Arrive(to, arrival));
    }

    fn input(&mut self, number: usize) {
        let now = self.now;
        let rate = self.nodes[number].rate;
        if rate == 0 || now > self.scene.stop {
            return;
        }
        if self.nodes[number].is_paused || self.nodes[number].machine.is_none() {
            return self.at(now + 20_000, Event::Input(number));
        }
        for _ in 0..if rate == FULL { 8 } else { 1 } {
            let node = &self.nodes[number];
            if !node.machine.as_ref().unwrap().may_publish() && node.kind != Kind::Flood {
                self.nodes[number].is_blocked = true;
                break;
            }
            self.publish(number);
        }
        self.after(number);
        if !self.nodes[number].is_blocked {
            let wait = if rate == FULL { 1_000 } else { SECOND / rate };
            self.at(now + wait, Event::Input(number));
        }
    }

    fn publish(&mut self, number: usize) {
        let now = self.now;
        let len = self.scene.sizes.draw(&mut self.random);
        let node = &mut self.nodes[number];
        let machine = node.machine.as_mut().unwrap();
        let (prev, stamp) = machine.next_own(now);
        machine.publish(now, prev, stamp, vec![0; len as usize].into());
        node.model.iter_mut().for_each(|it| it.note(number, prev, stamp, len as usize));
        node.has_published = true;
        self.born.insert((number, stamp), now);
        self.outcome.published += 1;
        if node.is_honest() {
            self.deliver(number, (number, stamp));
        }
    }
}
