//! A link between two relays that takes time, and that breaks when it is told to.

use std::io::{Read, Write};
use std::net::{Shutdown, SocketAddr, TcpListener, TcpStream};
use std::sync::mpsc::{Receiver, channel};
use std::sync::{Arc, Mutex};
use std::thread::{sleep, spawn};
use std::time::{Duration, Instant};

pub struct Link {
    /// Who connects here is connected with the other end.
    pub address: SocketAddr,
    streams: Arc<Mutex<Vec<TcpStream>>>,
}

impl Link {
    /// A link to an address, over which each byte takes some time.
    pub fn to(address: SocketAddr, time: Duration) -> Link {
        let listener = TcpListener::bind("127.0.0.1:0").unwrap();
        let link = Link { address: listener.local_addr().unwrap(), streams: Arc::default() };
        let streams = link.streams.clone();
        spawn(move || {
            for near in listener.incoming().map_while(Result::ok) {
                let Ok(far) = TcpStream::connect(address) else { continue };
                carry(near.try_clone().unwrap(), far.try_clone().unwrap(), time);
                carry(far.try_clone().unwrap(), near.try_clone().unwrap(), time);
                streams.lock().unwrap().extend([near, far]);
            }
        });
        link
    }

    /// Ends all connections. New ones may come.
    pub fn cut(&self) {
        for it in self.streams.lock().unwrap().drain(..) {
            let _ = it.shutdown(Shutdown::Both);
        }
    }
}

/// Carries bytes one way, each for some time.
fn carry(mut from: TcpStream, mut to: TcpStream, time: Duration) {
    let (sender, read): (_, Receiver<(Instant, Vec<u8>)>) = channel();
    from.set_nodelay(true).unwrap();
    spawn(move || {
        let mut bytes = [0; 16 << 10];
        while let Ok(len @ 1..) = from.read(&mut bytes) {
            if sender.send((Instant::now() + time, bytes[..len].to_vec())).is_err() {
                break;
            }
        }
    });
    spawn(move || {
        for (at, bytes) in read {
            sleep(at.saturating_duration_since(Instant::now()));
            if to.write_all(&bytes).is_err() {
                break;
            }
        }
        let _ = to.shutdown(Shutdown::Both);
    });
}
