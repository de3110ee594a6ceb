//! Runs a relay, from its start to its end.

use crate::config::Config;
use crate::gossip::{self, SECOND};
use crate::identity::{Identity, may_others_read};
use crate::input::{self, Lines};
use crate::intake::{Deliver, Intake};
use crate::journal;
use crate::listen::{Met, Network, accept, apart, start_dialing};
use crate::metrics::{self, serve_metrics};
use crate::now;
use crate::output::{self, MAX_WAITING, Output};
use crate::strangers::Strangers;
use crate::tls::Tls;
use crate::trouble::Trouble;
use std::fs::{self, File};
use std::future::pending;
use std::io::{self, IsTerminal, stdin};
use std::net::SocketAddr;
use std::path::Path;
use std::sync::Arc;
use std::thread;
use std::time::Duration;
use tokio::net::TcpListener;
use tokio::runtime::Builder;
use tokio::signal::unix::{SignalKind, signal};
use tokio::sync::Semaphore;
use tokio::time::{Instant, sleep, timeout};
use tracing::{info, warn};

/// How long an end may wait until all is printed, and each peer has read all own messages.
const DRAIN: Duration = Duration::from_secs(10);
/// How often it is looked whether all is written.
const POLL: Duration = Duration::from_millis(1);
/// How often it is looked at least whether something is due.
const LOOK: Duration = Duration::from_secs(1);

/// Runs the relay of a configuration until SIGTERM or SIGINT.
pub fn run(file: &Path) -> io::Result<()> {
    gossip::check().map_err(io::Error::other)?;
    let mut config = Config::load(file)?;
    let log = Output::start_log()?;
    fit(&mut config)?;
    let runtime = Builder::new_multi_thread().enable_all().build()?;
    let result = runtime.block_on(serve(file, config, log.clone()));
    // A reader of the log that does not read is waited for only for a while.
    (0..1_000).take_while(|_| !log.is_done()).for_each(|_| thread::sleep(POLL));
    result?;
    // The thread that reads the input may wait for it for ever.
    std::process::exit(0)
}

/// Takes as many places for handshakes as the limit on descriptors leaves, so that none is ever lacking for a peer.
fn fit(config: &mut Config) -> io::Result<()> {
    let limits = fs::read_to_string("/proc/self/limits").unwrap_or_default();
    let line = limits.lines().find_map(|it| it.strip_prefix("Max open files"));
    let soft = line.and_then(|it| it.split_whitespace().next()?.parse().ok()).unwrap_or(u64::MAX);
    let spared = config.descriptors().saturating_sub(soft).div_ceil(2);
    if spared == 0 {
        return Ok(());
    }
    let limits = &mut config.limits;
    let left = limits.handshakes.saturating_sub(spared);
    if left < 4 {
        return Err(io::Error::other(format!("{soft} descriptors are too few for these peers")));
    }
    warn!(soft, left, "few descriptors, so few places for handshakes");
    limits.handshakes = left;
    limits.handshakes_per_address = limits.handshakes_per_address.min(left / 2);
    Ok(())
}

async fn serve(file: &Path, config: Config, log: Output) -> io::Result<()> {
    let mut terminate = signal(SignalKind::terminate())?;
    let mut interrupt = signal(SignalKind::interrupt())?;
    let mut hangup = signal(SignalKind::hangup())?;
    let (network, _folder) = start(&config, log).await?;
    let mut lines = if config.input { input::start()? } else { Lines::none() };
    let publishes = async {
        input::publish(&network.intake, &mut lines, None).await;
        pending().await
    };
    let hangs_up = async {
        let has_terminal = config.input && stdin().is_terminal();
        loop {
            hangup.recv().await;
            if has_terminal && !stdin().is_terminal() {
                return;
            }
            reload(&network, file, &config).await;
        }
    };
    let why = tokio::select! {
        _ = terminate.recv() => "SIGTERM",
        _ = interrupt.recv() => "SIGINT",
        () = hangs_up => "SIGHUP: the terminal of the input is closed",
        why = publishes => why,
    };
    info!(why, "ends");
    drain(&network, lines).await;
    let page = metrics::page(&network);
    let counted = page.lines().filter(|it| !it.starts_with('#') && !it.ends_with(" 0"));
    counted.for_each(|it| info!("{it}"));
    info!("ended");
    Ok(())
}

/// Publishes what was read, and waits until each peer has all own messages and has closed, and all is printed, for a while.
async fn drain(network: &Network, mut lines: Lines) {
    let (intake, end) = (&network.intake, Instant::now() + DRAIN / 2);
    lines.stop();
    let all = async {
        input::publish(intake, &mut lines, Some(end)).await;
        intake.end();
        while intake.is_connected() || !network.output.as_ref().is_none_or(Output::is_done) {
            sleep(POLL).await;
        }
    };
    if timeout(DRAIN, all).await.is_err() {
        let (peers, unpublished) = (intake.lacking(), lines.read() - intake.published());
        let unprinted = network.output.as_ref().map_or(0, Output::waiting);
        warn!(
            unpublished,
            unprinted, peers, "not all was published, printed, or sent to all peers"
        );
    }
}

/// Reports the time to the protocol whenever it is due, and logs what begins and is over, for ever.
async fn keep_time(network: Arc<Network>) {
    let (intake, mut looked, mut unread) = (&network.intake, now(), Trouble::default());
    loop {
        let rest = Duration::from_micros(intake.plan().saturating_sub(now())).min(LOOK);
        if timeout(rest, intake.earlier.notified()).await.is_err() {
            intake.timeout(now());
        }
        if now() < looked + SECOND {
            continue;
        }
        looked = now();
        intake.look(looked);
        let lines = network.output.as_ref().map_or(0, Output::dropped);
        match unread.note(looked, lines) {
            Some(true) => warn!(lines, "lines are not printed: nobody reads the output in time"),
            Some(false) => warn!(lines, "lines are printed again"),
            None => {}
        }
    }
}

/// Starts listener and dialers. No journal is touched before the ports and the folder are this relay's. Returns besides the lock of
/// the folder.
async fn start(config: &Config, log: Output) -> io::Result<(Arc<Network>, Option<File>)> {
    let identity = Identity::load(&config.key)?;
    if may_others_read(&config.key)? {
        warn!(file = %config.key.display(), "others may read this key");
    }
    let listener = bind(config.listen).await?;
    let served = match config.metrics {
        Some(address) => Some((bind(address).await?, address)),
        None => None,
    };
    let folder = config.journal.as_deref().map(journal::lock_folder).transpose()?;
    let output = match config.output {
        Some(_) => Some(Output::start("output", io::stdout(), MAX_WAITING)?),
        None => None,
    };
    let (limits, journal) = (&config.limits, config.journal.clone());
    let (bounds, cost) = (limits.bounds(), limits.signature_cost());
    let intake = Intake::new(identity, bounds, cost, journal, printer(config, &output))?;
    let intake = Arc::new(intake);
    let [places, of_address] =
        [limits.handshakes, limits.handshakes_per_address].map(|it| it as usize);
    let network = Arc::new(Network {
        tls: Tls::new(intake.clone())?,
        intake,
        strangers: Strangers::new(places, of_address),
        accepted: Arc::new(Semaphore::new(2 * places)),
        met: Met::default(),
        output,
        log,
    });
    if let Some((listener, address)) = served {
        info!(%address, "metrics");
        tokio::spawn(serve_metrics(network.clone(), listener));
    }
    set_peers(&network, config.clone()).await?;
    let key = hex::encode(network.intake.identity.id);
    info!(address = %config.listen, key, "listening");
    tokio::spawn(keep_time(network.clone()));
    tokio::spawn(accept(network.clone(), listener));
    Ok((network, folder))
}

/// What prints each new message, if that is configured.
fn printer(config: &Config, output: &Option<Output>) -> Deliver {
    match (config.output, output.clone()) {
        (Some(form), Some(output)) => Box::new(move |author, message| {
            let line = output::line(form, &author.config.name, message);
            output.print(author.config.key, line);
        }),
        _ => Box::new(|_, _| {}),
    }
}

async fn bind(address: SocketAddr) -> io::Result<TcpListener> {
    let named = |why: io::Error| io::Error::new(why.kind(), format!("{address}: {why}"));
    TcpListener::bind(address).await.map_err(named)
}

/// Reads the peers of the configuration again. After an error they stay as they are.
async fn reload(network: &Arc<Network>, file: &Path, old: &Config) {
    let reloaded = async {
        let new = Config::load(file)?;
        let config = Config { peers: new.peers.clone(), ..old.clone() };
        if new != config {
            warn!("what is changed beside the peers counts from the next start on");
        }
        set_peers(network, config).await
    };
    match reloaded.await {
        Ok(changed) => info!(changed, "reloaded"),
        Err(why) => warn!(%why, "not reloaded"),
    }
}

/// Sets the peers, in a thread of its own, since that reads journals, and dials those that are new or have moved. Returns how many.
async fn set_peers(network: &Arc<Network>, config: Config) -> io::Result<usize> {
    let intake = network.intake.clone();
    let peers = apart(move || intake.set_peers(now(), &config.peers)).await??;
    peers.iter().for_each(|it| start_dialing(network, it.clone()));
    Ok(peers.len())
}
