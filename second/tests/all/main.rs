//! The tests of the second program.

mod arrivals;
mod best_curve;
mod captioned;
mod editions;
mod files;
mod hand;
mod language;
mod lines;
mod many;
mod offset;
mod over;
mod pictures;
mod refusals;
mod replay;
mod round_trips;
mod script;
mod sound;
mod support;
mod wrong_ways;
