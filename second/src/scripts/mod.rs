//! The scripts by name, and the headings that they must have so many calls under.

pub mod arrivals;
pub mod base;
pub mod buckets;
pub mod chance;
pub mod edition;
pub mod files;
pub mod late;
pub mod long;
pub mod many;
pub mod next;
pub mod picture;
pub mod replay;
pub mod search;
pub mod sessions;
pub mod settings;
pub mod short;
pub mod unsound;

use crate::arrivals::ARRIVALS;
use crate::script::Script;

/// The scripts that are one and the same each time; besides them there is one by chance for each seed.
pub const NAMES: [&str; 16] = [
    "arrivals", "base", "buckets", "edition", "files", "late", "long", "many", "next", "picture",
    "replay", "search", "sessions", "settings", "short", "unsound",
];

/// Nothing for another name.
pub fn of_name(name: &str) -> Option<Script> {
    let write = match name {
        "arrivals" => arrivals::write,
        "base" => base::write,
        "buckets" => buckets::write,
        "edition" => edition::write,
        "files" => files::write,
        "late" => late::write,
        "long" => long::write,
        "many" => many::write,
        "next" => next::write,
        "picture" => picture::write,
        "replay" => replay::write,
        "search" => search::write,
        "sessions" => sessions::write,
        "settings" => settings::write,
        "short" => short::write,
        "unsound" => unsound::write,
        _ => return None,
    };
    let mut script = Script::new(7);
    write(&mut script);
    Some(script)
}

/// How many calls all the scripts must have under which heading.
pub fn wanted_headings() -> Vec<(String, u64)> {
    let mut wanted = vec![
        ("# sessions".to_string(), 1_000),
        ("# open with settings of 64 bits".to_string(), 500),
        ("# load with settings of 64 bits".to_string(), 400),
        ("# a trace's last ticks".to_string(), 100),
        ("# in order, each reading told".to_string(), 1_000),
        ("# in order, far past the limit".to_string(), 10_000),
    ];
    for (heading, calls) in [
        (replay::FAR, 300),
        (replay::LARGEST, 40),
        (replay::OVER_A_TRACE, 1_500),
        (replay::GONE_ON_AFTER, 2_000),
        (many::OVER_THE_END, 2_000),
        (many::IN_TURN, 2_000),
        (many::OTHER_KIND, 1_000),
        (many::ONE_REFUSED, 2_000),
        (edition::FLAT, 10_000),
        (edition::FLAT_LATE, 10_000),
        (edition::LAID, 4_000),
        (edition::MANY, 1_500),
        (edition::MOVED, 4_000),
        (edition::REPLAYED, 1_000),
    ] {
        wanted.push((heading.to_string(), calls));
    }
    for order in late::ORDERS {
        wanted.push((late::heading(order), 1_000));
        wanted.push((many::heading(order), 250));
    }
    for arrivals in ARRIVALS {
        wanted.push((arrivals::heading(&arrivals), 2_000));
        wanted.push((replay::heading(&arrivals), 500));
    }
    for fault in files::FAULTS {
        wanted.push((files::heading(fault), 1_000));
    }
    wanted
}
