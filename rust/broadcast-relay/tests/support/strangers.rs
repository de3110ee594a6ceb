//! Strangers: sockets that prove no key, from addresses of their own. Whoever is thrown out comes back at once.

use std::net::{IpAddr, SocketAddr};
use std::sync::Arc;
use std::sync::atomic::{AtomicBool, Ordering};
use std::thread::{JoinHandle, spawn};
use std::time::Duration;
use tokio::io::{AsyncReadExt, AsyncWriteExt};
use tokio::net::TcpSocket;
use tokio::runtime::Builder;
use tokio::time::{sleep, timeout};

/// What a stranger does.
#[derive(Clone, Copy)]
pub enum Habit {
    /// Begins a handshake, and sends a byte of it each half second.
    Trickles,
    /// Sends nothing.
    IsSilent,
}

pub struct Strangers {
    stop: Arc<AtomicBool>,
    thread: Option<JoinHandle<()>>,
}

impl Strangers {
    /// Starts strangers, each with a habit, from an address, to a relay.
    pub fn start(strangers: Vec<(Habit, IpAddr, SocketAddr)>) -> Strangers {
        let stop = Arc::new(AtomicBool::new(false));
        let stopped = stop.clone();
        let thread = spawn(move || {
            Builder::new_current_thread().enable_all().build().unwrap().block_on(async {
                for (habit, from, to) in strangers {
                    tokio::spawn(come_back(habit, from, to));
                }
                while !stopped.load(Ordering::Relaxed) {
                    sleep(Duration::from_millis(10)).await;
                }
            });
        });
        Strangers { stop, thread: Some(thread) }
    }
}

impl Drop for Strangers {
    fn drop(&mut self) {
        self.stop.store(true, Ordering::Relaxed);
        let _ = self.thread.take().map(JoinHandle::join);
    }
}

async fn come_back(habit: Habit, from: IpAddr, to: SocketAddr) {
    loop {
        if stay(habit, from, to).await.is_err() {
            sleep(Duration::from_millis(1)).await;
        }
    }
}

async fn stay(habit: Habit, from: IpAddr, to: SocketAddr) -> std::io::Result<()> {
    let socket = TcpSocket::new_v4()?;
    socket.bind(SocketAddr::new(from, 0))?;
    let mut stream = socket.connect(to).await?;
    if let Habit::Trickles = habit {
        // The head of a record of 4,000 bytes of a handshake, and of a hello that is not there in full.
        stream.write_all(&[22, 3, 1, 15, 160, 1, 0, 15, 156, 3, 3]).await?;
    }
    loop {
        match timeout(Duration::from_millis(500), stream.read_u8()).await {
            Ok(Ok(_)) => {}
            Ok(Err(_)) => return Ok(()),
            Err(_) => {
                if let Habit::Trickles = habit {
                    stream.write_u8(0).await?;
                }
            }
        }
    }
}
