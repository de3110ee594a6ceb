//! Where relays run: each in a network namespace of its own, joined by a bridge, or all on loopback.
//!
//! A test starts itself again in a fresh network and mount namespace, so nothing is left of what it makes there. Where that
//! can't be had, it says so and runs on loopback.

use std::env;
use std::net::{IpAddr, Ipv4Addr};
use std::process::Command;

/// Set for a test that runs in namespaces of its own.
const INSIDE: &str = "RELAY_LAB";
/// Makes a place for names of namespaces that no one else sees, and becomes the test.
const ENTER: &str = "mount -t tmpfs none /run && ip link set lo up; exec \"$@\"";

pub struct Lab {
    namespaces: usize,
}

fn ip(words: &str) -> bool {
    let words = words.split(' ');
    Command::new(words.clone().next().unwrap())
        .args(words.skip(1))
        .output()
        .is_ok_and(|it| it.status.success())
}

impl Lab {
    pub fn loopback() -> Lab {
        Lab { namespaces: 0 }
    }

    /// Runs a test in a lab of `namespaces`, if these can be made, else on loopback.
    pub fn run(test: &str, namespaces: usize, body: impl FnOnce(&Lab)) {
        if env::var_os(INSIDE).is_some() {
            let lab = Lab::make(namespaces);
            return body(&lab);
        }
        let shell = ["--net", "--mount", "--propagation", "private", "setsid", "-w", "sh", "-c"];
        let probe = Command::new("unshare")
            .args(shell)
            .args([ENTER, "sh", "ip", "netns", "add", "probe"])
            .output();
        if !probe.is_ok_and(|it| it.status.success()) {
            println!("no namespaces can be made here: {test} runs on loopback");
            return body(&Lab::loopback());
        }
        let this = env::current_exe().unwrap();
        let status = Command::new("unshare")
            .args(shell)
            .args([ENTER, "sh"])
            .arg(this)
            .args([test, "--exact", "--nocapture"])
            .env(INSIDE, "1")
            .status();
        assert!(status.unwrap().success(), "{test} failed in its namespaces");
    }

    fn make(namespaces: usize) -> Lab {
        assert!(ip("ip link add hub type bridge") && ip("ip addr add 10.77.0.1/16 dev hub"));
        assert!(ip("ip link set hub up"));
        let mut has_netem = true;
        for number in 0..namespaces {
            let at = |words: &str| format!("ip netns exec r{number} {words}");
            for words in [
                format!("ip netns add r{number}"),
                format!("ip link add v{number} type veth peer name eth0 netns r{number}"),
                format!("ip link set v{number} master hub up"),
                at(&format!("ip addr add 10.77.1.{}/16 dev eth0", number + 1)),
                at("ip link set eth0 up"),
                at("ip link set lo up"),
            ] {
                assert!(ip(&words), "{words}");
            }
            has_netem &= ip(&at("tc qdisc add dev eth0 root netem delay 2ms 1ms loss 0.5%"));
        }
        // From these strangers come.
        (0..32).for_each(|it| assert!(ip(&format!("ip addr add 10.77.2.{}/16 dev hub", it + 1))));
        println!(
            "{namespaces} namespaces, {} loss and delay",
            if has_netem { "with" } else { "without" }
        );
        Lab { namespaces }
    }

    pub fn has_namespaces(&self) -> bool {
        self.namespaces > 0
    }

    pub fn namespace(&self, number: usize) -> Option<String> {
        self.has_namespaces().then(|| format!("r{number}"))
    }

    /// Where a relay listens.
    pub fn address(&self, number: usize) -> IpAddr {
        match self.has_namespaces() {
            true => Ipv4Addr::new(10, 77, 1, number as u8 + 1).into(),
            false => Ipv4Addr::LOCALHOST.into(),
        }
    }

    /// From where a stranger comes, of 32 addresses.
    pub fn stranger(&self, number: usize) -> IpAddr {
        let last = (number % 32) as u8;
        match self.has_namespaces() {
            true => Ipv4Addr::new(10, 77, 2, last + 1).into(),
            false => Ipv4Addr::new(127, 0, 1, last + 1).into(),
        }
    }
}
