//! The sorts of pictures, told from what they are lent, the trace at hand and the answer.

use crate::calls::{Refusal, State, CAPTION, SHORT, UNSOUND};
use crate::captions::{bad_bytes, good_bytes, hostile, SIGNS};
use crate::command::Command;
use crate::counts::Met;
use crate::picture::{self, FIRST_LINE, MOST_BYTES, MOST_CAPTION};
use crate::rule::{self, Bucket, Kind, TICKS};
use crate::session::Session;

/// One call for a picture and its answer; of an unsound trace no buckets are known.
pub struct Drawing<'a> {
    state: State,
    table: Vec<Bucket>,
    caption: &'a [u8],
    output: &'a [u8],
    refusal: Option<u32>,
    bytes: usize,
    /// State and buckets of the picture before it.
    before: Option<Drawn>,
}

/// Of what a picture was drawn.
pub type Drawn = (State, Vec<Bucket>);

/// So many pictures of each sort, with each byte at a place, of each pair, of each length and of each line of sample/captions.txt, at the least.
const OF_EACH_SORT: u64 = 50;
const OF_EACH_BYTE: u64 = 2;
const OF_EACH_PAIR: u64 = 2;
const OF_EACH_LENGTH: u64 = 20;
const OF_EACH_LINE: u64 = 2;

/// Lengths of captions without a bad byte: those that are drawn, and those that are refused.
const DRAWN: [usize; 7] = [0, 1, 99, 100, 101, 199, 200];
const TOO_LONG: [usize; 6] = [201, 255, 256, 300, 456, 65_636];

/// What no picture writes.
pub const MARK: u8 = 0xA5;

const BYTES_WRITTEN: &str = "picture: bytes written";

/// Where a bad byte stands.
const PLACES: [&str; 4] = ["alone", "at the beginning", "in the middle", "at the end"];

/// A sort by its name, and whether a call is of it. Those whose names begin with `refused` are of refused calls, all others of pictures that were drawn.
type Sort = (&'static str, fn(&Drawing) -> bool);

const SORTS: [Sort; 43] = [
    // The trace.
    ("of an empty trace", |drawing| drawing.table.is_empty()),
    ("of one bucket", |drawing| drawing.table.len() == 1),
    ("of one tick", |drawing| drawing.ticks() == 1),
    ("of several buckets at one level", |drawing| {
        drawing.table.len() > 1 && drawing.height() == 0
    }),
    ("of levels at both ends of the range", |drawing| {
        drawing.height() == i64::from(u32::MAX)
    }),
    ("of levels below 0 alone", |drawing| {
        !drawing.table.is_empty() && drawing.levels().all(|level| level < 0)
    }),
    ("of a level of a negative odd sum", |drawing| {
        let sum = |bucket: &Bucket| bucket.least + bucket.largest;
        let odd = |bucket: &Bucket| sum(bucket) < 0 && sum(bucket) % 2 != 0;
        drawing.table.iter().any(odd)
    }),
    ("of two million ticks or more, in order", |drawing| {
        drawing.ticks() >= 2_000_000 && drawing.state.kind == Kind::InOrder
    }),
    ("of two million ticks or more, late", |drawing| {
        drawing.ticks() >= 2_000_000 && drawing.state.kind == Kind::Late
    }),
    ("of every tick there is", |drawing| drawing.ticks() == TICKS),
    ("of 256 runs", |drawing| drawing.runs() == 256),
    ("of 512 buckets in order", |drawing| {
        drawing.table.len() == 512 && drawing.state.kind == Kind::InOrder
    }),
    ("of 768 buckets", |drawing| drawing.table.len() == 768),
    (
        "of lone readings at the first and the last tick of all",
        |drawing| {
            let lone = |tick: u64| Some(tick..tick + 1);
            let ticks = |bucket: &Bucket| bucket.start..bucket.end();
            let [first, last] = [drawing.table.first(), drawing.table.last()];
            first.map(ticks) == lone(0) && last.map(ticks) == lone(TICKS - 1)
        },
    ),
    ("from a tick above 0 on", |drawing| {
        drawing.table.first().is_some_and(|first| first.start > 0)
    }),
    ("of an odd span above 1", |drawing| {
        drawing.ticks() > 1 && drawing.ticks() % 2 == 1
    }),
    ("of missing ticks and of neighbours", |drawing| {
        drawing.runs() > 1 && drawing.runs() < drawing.table.len() as u64
    }),
    ("of a bucket that has no width of its own", |drawing| {
        let is = |bucket: &Bucket| drawing.across(bucket.start) == drawing.across(bucket.end());
        drawing.table.iter().any(is)
    }),
    ("of a tick that is rounded down", |drawing| {
        let is = |bucket: &Bucket| drawing.across_by_ticks(bucket.start) % drawing.ticks() > 0;
        drawing.table.iter().any(is)
    }),
    ("of a level that is rounded down", |drawing| {
        let height = drawing.height();
        height > 0
            && drawing
                .levels()
                .any(|level| (drawing.top() - level) * 3_800 % height > 0)
    }),
    ("of the buckets before, of the other kind", |drawing| {
        drawing.of_those_before(|state| state.kind != drawing.state.kind)
    }),
    ("of the buckets before, by another C", |drawing| {
        drawing.of_those_before(|state| state.base != drawing.state.base)
    }),
    ("of the buckets before, by another K", |drawing| {
        let late = |state: &State| state.kind == Kind::Late;
        drawing.of_those_before(|state| {
            late(state) && late(&drawing.state) && state.gaps != drawing.state.gaps
        })
    }),
    ("of the buckets before, by another edition", |drawing| {
        drawing.of_those_before(|state| state.edition != drawing.state.edition)
    }),
    // The caption.
    ("with a sign that ends the first line", |drawing| {
        drawing.has_sign_at(FIRST_LINE - 1) && drawing.caption.len() > FIRST_LINE
    }),
    ("with a sign that begins the second line", |drawing| {
        drawing.has_sign_at(FIRST_LINE)
    }),
    ("with 200 signs", |drawing| {
        let signs = |caption: &[u8]| caption.iter().all(|byte| SIGNS.contains(byte));
        drawing.caption.len() == MOST_CAPTION && signs(drawing.caption)
    }),
    ("with a typed entity", |drawing| {
        let entity = |entity: &[u8]| drawing.has(entity);
        entity(b"&lt;") || entity(b"&amp;") || entity(b"&#39;")
    }),
    ("with spaces at both ends", |drawing| {
        let ends = [drawing.caption.first(), drawing.caption.last()];
        ends == [Some(&b' '); 2]
    }),
    // The output.
    ("in an output that it fills", |drawing| {
        drawing.behind().is_empty()
    }),
    ("with one byte behind it", |drawing| {
        drawing.behind().len() == 1
    }),
    ("with marks behind it", |drawing| {
        is_marked(drawing.behind())
    }),
    ("in an output of 22866 bytes", |drawing| {
        drawing.output.len() == MOST_BYTES
    }),
    ("refused by 13 for one byte", |drawing| {
        drawing.refusal == Some(SHORT) && drawing.output.len() + 1 == drawing.wanted_bytes()
    }),
    ("refused by 13 for want of any output", |drawing| {
        drawing.refusal == Some(SHORT) && drawing.output.is_empty()
    }),
    // What is refused, and what leaves it so.
    ("refused by 4 over marks", |drawing| {
        drawing.refusal == Some(UNSOUND) && is_marked(drawing.output)
    }),
    ("refused by 13 over marks", |drawing| {
        drawing.refusal == Some(SHORT) && is_marked(drawing.output)
    }),
    ("refused by 15 over marks", |drawing| {
        drawing.refusal == Some(CAPTION) && is_marked(drawing.output)
    }),
    ("refused by 4 with a bad caption", |drawing| {
        drawing.refusal == Some(UNSOUND) && !picture::is_caption(drawing.caption)
    }),
    ("refused by 4 with a good caption", |drawing| {
        drawing.refusal == Some(UNSOUND) && picture::is_caption(drawing.caption)
    }),
    ("refused by 4 without an output", |drawing| {
        drawing.refusal == Some(UNSOUND) && drawing.output.is_empty()
    }),
    ("refused by 15 with a short output", |drawing| {
        drawing.refusal == Some(CAPTION) && drawing.output.len() < drawing.wanted_bytes()
    }),
    (
        "refused by 15 with an output that is long enough",
        |drawing| {
            drawing.refusal == Some(CAPTION) && drawing.output.len() >= drawing.wanted_bytes()
        },
    ),
];

fn is_marked(bytes: &[u8]) -> bool {
    !bytes.is_empty() && bytes.iter().all(|&byte| byte == MARK)
}

impl<'a> Drawing<'a> {
    pub fn new(
        session: &'a Session,
        command: &Command,
        answer: Result<u64, Refusal>,
        before: Option<Drawn>,
    ) -> Drawing<'a> {
        let refusal = answer.err().map(|refusal| refusal.number);
        Drawing {
            state: session.state,
            table: match refusal {
                Some(UNSOUND) => Vec::new(),
                _ => session.buckets(),
            },
            caption: session.lent_caption(command),
            output: session.lent_output(command),
            refusal,
            bytes: answer.unwrap_or(0) as usize,
            before,
        }
    }

    /// For the picture after it; nothing of one that was refused.
    pub fn drawn(self) -> Option<Drawn> {
        self.is_drawn().then_some((self.state, self.table))
    }

    fn is_drawn(&self) -> bool {
        self.refusal.is_none()
    }

    fn behind(&self) -> &[u8] {
        &self.output[self.bytes..]
    }

    /// As many as these bytes would need, were they a caption.
    fn wanted_bytes(&self) -> usize {
        picture::text(&self.table, self.caption).len()
    }

    fn levels(&self) -> impl Iterator<Item = i64> + '_ {
        self.table.iter().map(Bucket::level)
    }

    fn top(&self) -> i64 {
        self.levels().max().unwrap_or(0)
    }

    fn height(&self) -> i64 {
        self.top() - self.levels().min().unwrap_or(0)
    }

    fn runs(&self) -> u64 {
        rule::runs(&self.table)
    }

    /// From the first tick to the last.
    fn ticks(&self) -> u64 {
        let end = self.table.last().map_or(0, Bucket::end);
        end - self.table.first().map_or(0, |first| first.start)
    }

    fn across_by_ticks(&self, tick: u64) -> u64 {
        (tick - self.table[0].start) * 9_800
    }

    fn across(&self, tick: u64) -> u64 {
        self.across_by_ticks(tick) / self.ticks()
    }

    fn has_sign_at(&self, index: usize) -> bool {
        let byte = self.caption.get(index);
        self.is_drawn() && byte.is_some_and(|byte| SIGNS.contains(byte))
    }

    fn has(&self, bytes: &[u8]) -> bool {
        self.caption.windows(bytes.len()).any(|part| part == bytes)
    }

    fn of_those_before(&self, differs: impl Fn(&State) -> bool) -> bool {
        let same = |(state, table): &Drawn| *table == self.table && differs(state);
        !self.table.is_empty() && self.is_drawn() && self.before.as_ref().is_some_and(same)
    }

    /// What the call meets, and how often.
    pub fn met(&self) -> Met {
        let once = self.sorts().into_iter().map(|sort| (sort, 1));
        let written = (BYTES_WRITTEN.to_string(), self.bytes as u64);
        once.chain([written]).collect()
    }

    fn sorts(&self) -> Vec<String> {
        let told = |name: &str| self.is_drawn() != name.starts_with("refused");
        let sorts = SORTS.iter().filter(|(name, is)| told(name) && is(self));
        let mut met: Vec<String> = sorts.map(|(name, _)| of_sort(name)).collect();
        let length = self.caption.len();
        match (self.refusal, self.caption) {
            (None, &[byte]) => met.push(alone(byte)),
            (None, &[first, second]) if SIGNS.contains(&first) || SIGNS.contains(&second) => {
                met.push(pair(first, second))
            }
            _ => {}
        }
        if self.is_drawn() {
            met.extend(DRAWN.contains(&length).then(|| of_length(length)));
            let line = hostile().iter().position(|line| *line == self.caption);
            met.extend(line.map(of_line));
        }
        if self.refusal == Some(CAPTION) {
            let bad = |byte: &u8| !(0x20..=0x7E).contains(byte);
            let mut places = (0..length).filter(|&index| bad(&self.caption[index]));
            match (places.next(), places.next()) {
                (None, _) => met.extend(TOO_LONG.contains(&length).then(|| of_length(length))),
                // Only where the length is not what it is refused for.
                (Some(index), None) if length <= MOST_CAPTION => {
                    let place = match (index, length - 1) {
                        (0, 0) => "alone",
                        (0, _) => "at the beginning",
                        (_, last) if index == last => "at the end",
                        _ => "in the middle",
                    };
                    met.push(bad_byte(self.caption[index], place));
                }
                _ => {}
            }
        }
        met
    }
}

fn of_sort(name: &str) -> String {
    format!("picture: {name}")
}

fn alone(byte: u8) -> String {
    format!("picture: caption of byte {byte} alone")
}

fn pair(first: u8, second: u8) -> String {
    format!("picture: caption of bytes {first} {second}")
}

fn of_length(length: usize) -> String {
    format!("picture: caption of {length} bytes")
}

fn of_line(line: usize) -> String {
    format!("picture: line {} of the hostile captions", line + 1)
}

fn bad_byte(byte: u8, place: &str) -> String {
    format!("picture: bad byte {byte} {place}")
}

/// How often each sort must be met.
pub fn wanted() -> Met {
    let mut wanted = Met::new();
    for (name, _) in SORTS {
        wanted.insert(of_sort(name), OF_EACH_SORT);
    }
    for byte in good_bytes() {
        wanted.insert(alone(byte), OF_EACH_BYTE);
        for sign in SIGNS {
            wanted.insert(pair(byte, sign), OF_EACH_PAIR);
            wanted.insert(pair(sign, byte), OF_EACH_PAIR);
        }
    }
    for byte in bad_bytes() {
        for place in PLACES {
            wanted.insert(bad_byte(byte, place), OF_EACH_BYTE);
        }
    }
    for length in DRAWN.into_iter().chain(TOO_LONG) {
        wanted.insert(of_length(length), OF_EACH_LENGTH);
    }
    for line in 0..hostile().len() {
        wanted.insert(of_line(line), OF_EACH_LINE);
    }
    wanted.insert(BYTES_WRITTEN.to_string(), 5_000_000);
    wanted
}
