//! Three nodes over ZeroMQ, each a process. A node's CURVE key is its identity: ZeroMQ encrypts each connection, and
//! notes on each message the key of the sender that it has authenticated.
//!
//!     cargo run                                   starts three nodes on loopback, and waits for them
//!     SECRET_KEY=.. cargo run -- PLACE NODE..     runs the node of this place among all nodes, each KEY@HOST:PORT

use broadcast_engine::{Config, Digested, Engine, Fixed, Mailbox, Message, Recipients};
use bytes::Bytes;
use sha2::{Digest, Sha256};
use std::net::TcpListener;
use std::{convert::Infallible, env, error::Error, process::Command, thread};
use tokio::{runtime::Runtime, sync::mpsc};

type Failure = Box<dyn Error + Send + Sync>;
/// A CURVE public key.
type Key = [u8; 32];

/// The most packets that wait for a peer, or for the engine. Those beyond are lost.
const QUEUE: i32 = 1_000;

/// A message of some bytes, whose digest is their hash.
struct Text(Bytes);

impl Message for Text {
    type Digest = [u8; 32];
    type Config = ();
    type Error = Infallible;

    fn encode(&self) -> Bytes {
        self.0.clone()
    }

    fn decode(bytes: Bytes, _: &()) -> Result<Text, Infallible> {
        Ok(Text(bytes))
    }

    fn digest(&self) -> [u8; 32] {
        Sha256::digest(&self.0).into()
    }
}

/// A socket to each other node.
struct Peers(Vec<(Key, zmq::Socket)>);

impl broadcast_engine::Sender for Peers {
    type PublicKey = Key;

    fn send(&mut self, recipients: Recipients<Key>, message: Bytes, _priority: bool) {
        for (key, socket) in &self.0 {
            match &recipients {
                Recipients::Some(keys) if !keys.contains(key) => continue,
                Recipients::One(one) if one != key => continue,
                // The engine may not wait: a packet for a full queue is lost.
                _ => drop(socket.send(&message[..], zmq::DONTWAIT)),
            }
        }
    }
}

/// A node's place in the network.
struct Node {
    zmq: zmq::Context,
    own: zmq::CurveKeyPair,
    address: String,
    all: Vec<(Key, String)>,
}

impl Node {
    fn read(place: usize, nodes: &[String], secret: &str) -> Result<Node, Failure> {
        let key = |text: &str| -> Result<Key, Failure> {
            Key::try_from(zmq::z85_decode(text)?).map_err(|_| "a key has 40 characters".into())
        };
        let node = |text: &String| {
            let (name, address) = text.rsplit_once('@').ok_or("a node is KEY@HOST:PORT")?;
            Ok::<_, Failure>((key(name)?, address.to_string()))
        };
        let all = nodes.iter().map(node).collect::<Result<Vec<_>, _>>()?;
        let (public_key, address) = all.get(place).ok_or("there is no such place")?.clone();
        let own = zmq::CurveKeyPair { public_key, secret_key: key(secret)? };
        Ok(Node { zmq: zmq::Context::new(), own, address, all })
    }

    /// Connects to each other node. ZeroMQ connects again by itself.
    fn connect(&self) -> Result<Peers, Failure> {
        let others = self.all.iter().filter(|it| it.0 != self.own.public_key);
        let connect = |(key, address): &(Key, String)| {
            let socket = self.zmq.socket(zmq::PUSH)?;
            socket.set_curve_serverkey(key)?; // only the owner of its secret can read what is sent
            socket.set_curve_publickey(&self.own.public_key)?;
            socket.set_curve_secretkey(&self.own.secret_key)?;
            socket.set_sndhwm(QUEUE)?;
            socket.connect(&format!("tcp://{address}"))?;
            Ok::<_, Failure>((*key, socket))
        };
        Ok(Peers(others.map(connect).collect::<Result<_, _>>()?))
    }

    /// Decides which keys may connect, by ZeroMQ's authentication protocol (ZAP), and notes them on their messages.
    fn authenticate(&self) -> Result<(), Failure> {
        let (requests, all) = (self.zmq.socket(zmq::REP)?, self.all.clone());
        requests.bind("inproc://zeromq.zap.01")?;
        thread::spawn(move || {
            // A request is: version, number, domain, address, identity, mechanism, key.
            while let Ok(asked) = requests.recv_multipart(0) {
                let [_, number, _, _, _, _, key, ..] = &asked[..] else { continue };
                let known = all.iter().find(|it| it.0[..] == key[..]);
                let user = known.and_then(|it| zmq::z85_encode(&it.0).ok()).unwrap_or_default();
                let status = if user.is_empty() { "400" } else { "200" };
                let reply = [b"1.0", &number[..], status.as_bytes(), b"", user.as_bytes(), b""];
                let _ = requests.send_multipart(reply, 0);
            }
        });
        Ok(())
    }

    /// Listens. Returns the packets that come, each with the key of its sender.
    fn listen(&self) -> Result<mpsc::Receiver<(Key, Bytes)>, Failure> {
        let socket = self.zmq.socket(zmq::PULL)?;
        socket.set_curve_server(true)?;
        socket.set_curve_secretkey(&self.own.secret_key)?;
        socket.set_rcvhwm(QUEUE)?;
        socket.set_maxmsgsize(100_000)?;
        socket.bind(&format!("tcp://{}", self.address))?;
        let (to_engine, received) = mpsc::channel(QUEUE as usize);
        thread::spawn(move || {
            while let Ok(mut packet) = socket.recv_msg(0) {
                let user = packet.gets("User-Id").and_then(|it| zmq::z85_decode(it).ok());
                let Some(key) = user.and_then(|it| Key::try_from(it).ok()) else { continue };
                if to_engine.blocking_send((key, Bytes::copy_from_slice(&packet))).is_err() {
                    break; // the engine has ended
                }
            }
        });
        Ok(received)
    }

    /// Starts an engine on the current runtime.
    fn start(&self) -> Result<Mailbox<Key, Text>, Failure> {
        self.authenticate()?;
        let peers = Fixed::new(self.all.iter().map(|it| it.0).collect::<Vec<_>>());
        let config = Config::new(self.own.public_key, peers, ());
        let (engine, mailbox) = Engine::new(config.deque_size(100).byte_budget(1 << 20))?;
        engine.start((self.connect()?, self.listen()?));
        Ok(mailbox)
    }

    /// Broadcasts one text, and waits for that of each node.
    async fn greet(&self, place: usize) -> Result<(), Failure> {
        let text = |place| Digested::new(Text(format!("hello from {place}").into()));
        let (mailbox, texts) = (self.start()?, (0..self.all.len()).map(text).collect::<Vec<_>>());
        let awaited: Vec<_> = texts.iter().map(|it| mailbox.subscribe(it.digest())).collect();
        if !mailbox.broadcast(Recipients::All, texts[place].clone()).accepted() {
            return Err("the engine has ended".into());
        }
        for subscription in awaited {
            println!("{place} has {:?}", subscription.await?.0);
        }
        Ok(())
    }
}

fn run(place: usize, nodes: &[String]) -> Result<(), Failure> {
    let (node, runtime) = (Node::read(place, nodes, &env::var("SECRET_KEY")?)?, Runtime::new()?);
    runtime.block_on(node.greet(place))?;
    drop(runtime); // and with it the engine and its sockets
    Ok(node.zmq.clone().destroy()?) // returns once all is sent
}

/// Starts the nodes, each as a process, and waits for them.
fn run_all() -> Result<(), Failure> {
    let (mut secrets, mut ports, mut nodes) = (Vec::new(), Vec::new(), Vec::new());
    for _ in 0..3 {
        let (pair, port) = (zmq::CurveKeyPair::new()?, TcpListener::bind("127.0.0.1:0")?);
        nodes.push(format!("{}@{}", zmq::z85_encode(&pair.public_key)?, port.local_addr()?));
        secrets.push(zmq::z85_encode(&pair.secret_key)?);
        ports.push(port);
    }
    drop(ports); // they are free for the nodes
    let mut children = Vec::new();
    for (place, secret) in secrets.iter().enumerate() {
        let mut node = Command::new(env::current_exe()?);
        children.push(node.env("SECRET_KEY", secret).arg(place.to_string()).args(&nodes).spawn()?);
    }
    let ended = children.iter_mut().map(|it| it.wait()).collect::<Result<Vec<_>, _>>()?;
    if ended.iter().all(|it| it.success()) { Ok(()) } else { Err("a node failed".into()) }
}

fn main() -> Result<(), Failure> {
    match &env::args().skip(1).collect::<Vec<_>>()[..] {
        [] => run_all(),
        [place, nodes @ ..] => run(place.parse()?, nodes),
    }
}
