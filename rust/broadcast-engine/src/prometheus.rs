//! The counters of an engine for `prometheus`, under the names and labels of `commonware_broadcast`.

use crate::metrics::{ByStatus, Metrics};
use prometheus::core::{Collector, Desc};
use prometheus::proto::MetricFamily;
use prometheus::{IntCounterVec, IntGauge, Opts, Registry};

/// The families that an engine has counters in: their names, labels and helps.
const FAMILIES: [(&str, &str, &str); 4] = [
    ("peer_total", "sequencer", "Number of broadcasts received by peer"),
    ("receive_total", "status", "Number of received messages by status"),
    ("subscribe_total", "status", "Number of `subscribe` requests by status"),
    ("get_total", "status", "Number of `get` requests by status"),
];

/// The counters and gauges of a moment.
struct Page {
    families: [IntCounterVec; 4],
    gauges: [IntGauge; 2],
}

impl Page {
    fn new() -> prometheus::Result<Page> {
        let family = |(name, label, help)| IntCounterVec::new(Opts::new(name, help), &[label]);
        let [peer, receive, subscribe, get] = FAMILIES.map(family);
        let waiters = IntGauge::new("waiters", "Number of digests being awaited")?;
        let cached = IntGauge::new("cached", "Number of cached messages")?;
        Ok(Page { families: [peer?, receive?, subscribe?, get?], gauges: [waiters, cached] })
    }

    fn collectors(&self) -> impl Iterator<Item = &dyn Collector> {
        let families = self.families.iter().map(|it| it as &dyn Collector);
        families.chain(self.gauges.iter().map(|it| it as &dyn Collector))
    }
}

struct Collected {
    metrics: Metrics,
    empty: Page,
}

impl Collector for Collected {
    fn desc(&self) -> Vec<&Desc> {
        self.empty.collectors().flat_map(Collector::desc).collect()
    }

    fn collect(&self) -> Vec<MetricFamily> {
        let Ok(page) = Page::new() else { return Vec::new() };
        let stats = self.metrics.snapshot();
        let [peer, by_status @ ..] = &page.families;
        for (key, count) in &stats.peers {
            peer.with_label_values(&[key]).inc_by(*count);
        }
        peer.with_label_values(&["other"]).inc_by(stats.other_peers);
        for (family, counts) in by_status.iter().zip([stats.receive, stats.subscribe, stats.get]) {
            let ByStatus { success, failure, dropped, invalid } = counts;
            let counts = [
                ("Success", success),
                ("Failure", failure),
                ("Dropped", dropped),
                ("Invalid", invalid),
            ];
            for (status, count) in counts {
                family.with_label_values(&[status]).inc_by(count);
            }
        }
        for (gauge, value) in page.gauges.iter().zip([stats.waiters, stats.cached]) {
            gauge.set(i64::try_from(value).unwrap_or(i64::MAX));
        }
        page.collectors().flat_map(Collector::collect).collect()
    }
}

impl Metrics {
    /// Registers all counters: `peer_total` by `sequencer`, which is the key of a primary peer in hexadecimal, or
    /// `other`; `receive_total`, `subscribe_total` and `get_total` by `status`; `waiters` and `cached`. A registry with a
    /// prefix keeps those of several engines apart.
    ///
    /// # Errors
    ///
    /// Fails if the registry has a metric of one of these names.
    pub fn register(&self, registry: &Registry) -> prometheus::Result<()> {
        registry.register(Box::new(Collected { metrics: self.clone(), empty: Page::new()? }))
    }
}
