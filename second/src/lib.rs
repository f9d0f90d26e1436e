//! The second program of Ndezulangi as a library: the rule, the calls, the logger's recordings, the picture, scripts of calls and what they meet, the
//! listing and the sample.

pub mod arrivals;
pub mod calls;
pub mod captioned;
pub mod captions;
pub mod classes;
pub mod clauses;
pub mod command;
pub mod counts;
pub mod editions;
pub mod feeds;
pub mod lines;
pub mod listing;
pub mod logger;
pub mod long_lines;
pub mod made;
pub mod picture;
pub mod pictures;
pub mod random;
pub mod recordings;
pub mod rule;
pub mod sample;
pub mod script;
pub mod scripts;
pub mod searches;
pub mod session;
pub mod shapes;
pub mod sizes;
pub mod told;
