//! The page's figures as text for Prometheus, version 0.0.4 of its format.

use crate::figures::{Overview, PeerShown, Refused, Taught};
use peers::layout::{ENTRIES, TABLES};
use peers::Store;
use std::fmt::{Display, Write};
use std::time::{SystemTime, UNIX_EPOCH};

/// Labels, as they stand behind a name, and a value.
type Sample = (String, String);

/// All metrics. Moments are in seconds since 1970.
pub fn text(overview: &Overview, store: &Store) -> String {
    let mut out = Text::default();
    out.own(overview);
    out.tables(overview, store);
    out.connections(&overview.peers);
    out.messages(&overview.peers);
    out.refusals(&overview.peers);
    out.0
}

#[derive(Default)]
struct Text(String);

impl Text {
    fn own(&mut self, overview: &Overview) {
        let name = labels(&[("name", &overview.name)]);
        self.gauge(
            "info",
            "The name under which the peers know us.",
            [(name, one())],
        );
        self.gauge(
            "start_time_seconds",
            "When the aggregator began.",
            [plain(seconds(overview.begun))],
        );
        self.counter(
            "log_lines_lost_total",
            "Lines that weren't written to standard error.",
            [plain(overview.lost)],
        );
    }

    fn tables(&mut self, overview: &Overview, store: &Store) {
        let current = overview.unfed_since().unwrap_or(overview.now);
        self.gauge(
            "tables_current_timestamp_seconds",
            "What the tables are current to: now while a peer that feeds us is connected, else when the last one left.",
            [plain(seconds(current))],
        );
        let held = store.tables().count();
        self.gauge("tables", "Tables that are held.", [plain(held)]);
        self.gauge("tables_limit", "Places for tables.", [plain(TABLES)]);
        let entries = store.tables().map(|table| {
            let name = table.name().escape_ascii();
            let count = store.entries_of(table.place());
            (labels(&[("table", &name)]), count.to_string())
        });
        self.gauge("entries", "Entries that are held of a table.", entries);
        self.gauge(
            "entries_limit",
            "Places for entries, of all tables together.",
            [plain(ENTRIES)],
        );
    }

    fn connections(&mut self, peers: &[PeerShown]) {
        let infos = peers.iter().map(|peer| {
            let address = peer.address.as_deref().unwrap_or_default();
            (
                labels(&[("peer", &peer.name), ("address", &address)]),
                one(),
            )
        });
        self.gauge("peer_info", "A peer's address, if it is dialled.", infos);
        self.gauge(
            "peer_up",
            "Whether a connection with the peer is past its handshake.",
            each(peers, |peer| Some(u8::from(peer.shown.established))),
        );
        self.gauge(
            "peer_state_change_timestamp_seconds",
            "When a connection with the peer came past its handshake or ended last.",
            each(peers, |peer| Some(seconds(peer.shown.since))),
        );
        self.gauge(
            "peer_heard_timestamp_seconds",
            "When a byte came from the peer last.",
            each(peers, |peer| peer.shown.heard.map(seconds)),
        );
        self.counter(
            "peer_connections_total",
            "Connections with the peer that were past their handshake.",
            each(peers, |peer| Some(peer.shown.connections)),
        );
    }

    fn messages(&mut self, peers: &[PeerShown]) {
        self.counter(
            "peer_updates_total",
            "Updates of the peer that were taken.",
            each(peers, |peer| Some(peer.shown.updates)),
        );
        self.gauge(
            "peer_taught",
            "Whether the peer has taught all of its entries since its last connection began.",
            each(peers, |peer| {
                Some(u8::from(peer.shown.taught == Taught::Finished))
            }),
        );
        self.counter(
            "peer_purged_entries_total",
            "Entries that were freed for new ones of the peer.",
            each(peers, |peer| Some(peer.shown.purged)),
        );
    }

    fn refusals(&mut self, peers: &[PeerShown]) {
        let counts = peers.iter().flat_map(|peer| {
            let by_number = peer.shown.refusals.iter();
            by_number.map(|(number, count)| {
                (
                    labels(&[("peer", &peer.name), ("number", number)]),
                    count.to_string(),
                )
            })
        });
        self.counter(
            "peer_refusals_total",
            "Messages of the peer that were refused, by the refusal's number.",
            counts,
        );
        let last = peers
            .iter()
            .filter_map(|peer| Some(last_refusal(&peer.name, peer.shown.refused.as_ref()?)));
        self.gauge(
            "peer_last_refusal_timestamp_seconds",
            "When a message of the peer was refused last.",
            last,
        );
        let unplaced = peers.iter().filter_map(|peer| {
            let table = peer.shown.unplaced.as_ref()?;
            Some((labels(&[("peer", &peer.name), ("table", table)]), one()))
        });
        self.gauge(
            "peer_table_without_place",
            "A table of the peer for which no place was free.",
            unplaced,
        );
    }

    fn gauge(&mut self, name: &str, help: &str, samples: impl IntoIterator<Item = Sample>) {
        self.family(name, "gauge", help, samples);
    }

    fn counter(&mut self, name: &str, help: &str, samples: impl IntoIterator<Item = Sample>) {
        self.family(name, "counter", help, samples);
    }

    fn family(
        &mut self,
        name: &str,
        kind: &str,
        help: &str,
        samples: impl IntoIterator<Item = Sample>,
    ) {
        // writing to a string doesn't fail
        let _ = writeln!(self.0, "# HELP aggregator_{name} {help}");
        let _ = writeln!(self.0, "# TYPE aggregator_{name} {kind}");
        for (labels, value) in samples {
            let _ = writeln!(self.0, "aggregator_{name}{labels} {value}");
        }
    }
}

/// A sample without labels.
fn plain(value: impl Display) -> Sample {
    (String::new(), value.to_string())
}

/// The value of what is known by its labels.
fn one() -> String {
    "1".to_owned()
}

/// A sample for each peer that has the value.
fn each<'a, V: Display>(
    peers: &'a [PeerShown],
    value: impl Fn(&PeerShown) -> Option<V> + 'a,
) -> impl Iterator<Item = Sample> + 'a {
    peers.iter().filter_map(move |peer| {
        let value = value(peer)?;
        Some((labels(&[("peer", &peer.name)]), value.to_string()))
    })
}

fn last_refusal(peer: &str, refused: &Refused) -> Sample {
    let offset = refused
        .offset
        .map_or(String::new(), |offset| offset.to_string());
    let labels = labels(&[
        ("peer", &peer),
        ("number", &refused.refusal.number()),
        ("offset", &offset),
        ("table", &refused.table.as_deref().unwrap_or_default()),
    ]);
    (labels, seconds(refused.when))
}

/// Labels with their values, escaped.
fn labels(labels: &[(&str, &dyn Display)]) -> String {
    let one = |(name, value): &(&str, &dyn Display)| {
        let value = value.to_string();
        let escaped = value
            .replace('\\', "\\\\")
            .replace('"', "\\\"")
            .replace('\n', "\\n");
        format!("{name}=\"{escaped}\"")
    };
    let labels: Vec<_> = labels.iter().map(one).collect();
    format!("{{{}}}", labels.join(","))
}

/// A moment, to the millisecond.
fn seconds(time: SystemTime) -> String {
    let since = time.duration_since(UNIX_EPOCH).unwrap_or_default();
    format!("{}.{:03}", since.as_secs(), since.subsec_millis())
}

#[cfg(test)]
mod tests {
    use super::*;
    use crate::figures::Figures;
    use peers::Refusal;
    use std::time::Duration;

    fn at(milliseconds: u64) -> SystemTime {
        UNIX_EPOCH + Duration::from_millis(milliseconds)
    }

    fn overview() -> Overview {
        let peer = |name: &str, address: Option<&str>| {
            let figures = Figures::new(at(1_500));
            figures.refused(Refusal::Tables, None, Some("a\\x00".to_owned()));
            figures.refused(Refusal::Range, Some(3), None);
            figures.updated();
            figures.purged(4);
            let mut shown = figures.copy();
            shown.refused.as_mut().unwrap().when = at(7_000);
            PeerShown {
                name: name.to_owned(),
                address: address.map(str::to_owned),
                shown,
            }
        };
        Overview {
            name: "east".to_owned(),
            begun: at(1_007),
            now: at(9_000),
            peers: vec![
                peer("we\"st\\", None),
                peer("north", Some("192.0.2.7:10000")),
            ],
            lost: 2,
        }
    }

    #[test]
    fn samples() {
        let text = text(&overview(), &Store::new());
        for line in [
            "aggregator_info{name=\"east\"} 1",
            "aggregator_start_time_seconds 1.007",
            "aggregator_log_lines_lost_total 2",
            "aggregator_tables_current_timestamp_seconds 1.500",
            "aggregator_tables 0",
            "aggregator_tables_limit 8",
            "aggregator_entries_limit 128",
            "aggregator_peer_info{peer=\"we\\\"st\\\\\",address=\"\"} 1",
            "aggregator_peer_info{peer=\"north\",address=\"192.0.2.7:10000\"} 1",
            "aggregator_peer_up{peer=\"north\"} 0",
            "aggregator_peer_state_change_timestamp_seconds{peer=\"north\"} 1.500",
            "aggregator_peer_connections_total{peer=\"north\"} 0",
            "aggregator_peer_updates_total{peer=\"north\"} 1",
            "aggregator_peer_taught{peer=\"north\"} 0",
            "aggregator_peer_purged_entries_total{peer=\"north\"} 4",
            "aggregator_peer_refusals_total{peer=\"north\",number=\"24\"} 1",
            "aggregator_peer_refusals_total{peer=\"north\",number=\"26\"} 1",
            "aggregator_peer_last_refusal_timestamp_seconds{peer=\"north\",number=\"24\",offset=\"3\",table=\"\"} 7.000",
            "aggregator_peer_table_without_place{peer=\"north\",table=\"a\\\\x00\"} 1",
        ] {
            assert!(text.lines().any(|l| l == line), "no {line} in\n{text}");
        }
        assert!(!text.contains("aggregator_peer_heard_timestamp_seconds{"));
        assert!(!text.contains("aggregator_entries{"));
    }

    /// Each sample stands behind its own HELP and TYPE, and a name ends in `_total` where it is a counter and only there.
    #[test]
    fn families() {
        let text = text(&overview(), &Store::new());
        let (mut name, mut helped, mut families) = (String::new(), String::new(), 0);
        for line in text.lines() {
            if let Some(help) = line.strip_prefix("# HELP ") {
                helped = help.split_once(' ').unwrap().0.to_owned();
            } else if let Some(kind) = line.strip_prefix("# TYPE ") {
                let (of, kind) = kind.split_once(' ').unwrap();
                assert_eq!(
                    (of, kind == "counter"),
                    (helped.as_str(), of.ends_with("_total"))
                );
                name = of.to_owned();
                families += 1;
            } else {
                assert_eq!(line.split(['{', ' ']).next(), Some(name.as_str()));
            }
        }
        assert_eq!(families, 19);
    }

    #[test]
    fn a_line_feed_is_escaped() {
        assert_eq!(
            labels(&[("a", &"b\nc"), ("d", &7)]),
            "{a=\"b\\nc\",d=\"7\"}"
        );
    }
}
