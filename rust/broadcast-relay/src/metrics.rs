//! `GET /metrics` and `GET /healthz` for a scraper. README.md says what each counter means.

use crate::intake::Standing;
use crate::listen::Network;
use crate::now;
use crate::output::Output;
use hyper::server::conn::Http;
use hyper::service::service_fn;
use hyper::{Body, Method, Request, Response, StatusCode, http};
use std::collections::VecDeque;
use std::sync::Arc;
use std::sync::atomic::Ordering::Relaxed;
use std::time::Duration;
use tokio::net::TcpListener;
use tokio::task::JoinHandle;
use tokio::time::{sleep, timeout};

/// How many are served at once, and for how long at most.
const PLACES: usize = 16;
const PATIENCE: Duration = Duration::from_secs(5);

/// A metric of each node: its name, what it is, of whom, and its value.
type OfNode = (&'static str, &'static str, &'static str, fn(&Standing) -> u64);

const OF_NODES: [OfNode; 11] = [
    ("connected", "Whether a peer is connected", "peer", |it| it.is_connected.into()),
    ("held", "Whether an author waits for a peer", "author", |it| it.is_held.into()),
    ("stalled", "Whether a peer stands still", "peer", |it| it.is_stalled.into()),
    ("lost_total", "Gaps nobody can fill", "author", |it| it.lost),
    ("left_behind_total", "Left lists unsent", "peer", |it| it.left_behind),
    ("delivered_total", "New messages", "author", |it| it.counts.delivered),
    ("again_total", "Messages that came again", "peer", |it| it.counts.again),
    ("left_out_total", "Messages left out", "peer", |it| it.counts.left_out),
    ("unlisted_total", "Of unlisted authors", "peer", |it| it.counts.unlisted),
    ("invalid_total", "Closed for what came", "peer", |it| it.counts.invalid),
    ("replaced_total", "Connections that another replaced", "peer", |it| it.counts.replaced),
];

/// The page of all metrics.
pub fn page(network: &Network) -> String {
    let (intake, met) = (&network.intake, &network.met);
    let standings = intake.standings(now());
    let dropped = |it: &Output| it.dropped();
    let mut page = String::new();
    for (name, help, label, value) in OF_NODES {
        page += &head(name, help);
        for it in standings.iter().filter(|it| it.is_peer || label == "author") {
            page += &format!("relay_{name}{{{label}=\"{}\"}} {}\n", it.name, value(it));
        }
    }
    for (name, help, value) in [
        ("handshakes", "Connections that have proved no key", met.handshakes.load(Relaxed)),
        ("published_total", "Own messages", intake.published()),
        ("elsewhere_total", "Published elsewhere by this key", intake.elsewhere()),
        ("wakes_total", "How often something was due", intake.wakes()),
        ("strangers_total", "Who proved no listed key", met.strangers.load(Relaxed)),
        ("pushed_out_total", "Handshakes that lost a place", met.pushed_out.load(Relaxed)),
        ("turned_away_total", "Who got no place", met.turned_away.load(Relaxed)),
        ("output_dropped_total", "Lines nobody read", network.output.as_ref().map_or(0, dropped)),
        ("log_dropped_total", "Log lines nobody read", dropped(&network.log)),
    ] {
        page += &format!("{}relay_{name} {value}\n", head(name, help));
    }
    page
}

fn head(name: &str, help: &str) -> String {
    let kind = if name.ends_with("_total") { "counter" } else { "gauge" };
    format!("# HELP relay_{name} {help}\n# TYPE relay_{name} {kind}\n")
}

/// Serves the newest connections for a scraper: each that comes ends the oldest.
pub async fn serve_metrics(network: Arc<Network>, listener: TcpListener) {
    let mut served: VecDeque<JoinHandle<()>> = VecDeque::new();
    loop {
        let Ok((stream, _)) = listener.accept().await else {
            sleep(Duration::from_millis(100)).await;
            continue;
        };
        let network = network.clone();
        served.push_back(tokio::spawn(async move {
            let answers = service_fn(|request| {
                let response = answer(&network, &request);
                async { response }
            });
            let _ = timeout(PATIENCE, Http::new().serve_connection(stream, answers)).await;
        }));
        if served.len() > PLACES {
            served.pop_front().iter().for_each(JoinHandle::abort);
        }
    }
}

fn answer(network: &Network, request: &Request<Body>) -> http::Result<Response<Body>> {
    let (status, body) = match (request.method(), request.uri().path()) {
        (&Method::GET, "/metrics") => (StatusCode::OK, page(network)),
        (&Method::GET, "/healthz") => match network.intake.trouble() {
            None => (StatusCode::OK, "ok\n".to_owned()),
            Some(why) => (StatusCode::SERVICE_UNAVAILABLE, why + "\n"),
        },
        _ => (StatusCode::NOT_FOUND, String::new()),
    };
    Response::builder().status(status).body(body.into())
}
