//! Pictures: captions of every byte alone, of every pair with one of the five signs, of lengths about their bounds, with a bad byte at each place, and
//! hostile ones; outputs about the needed length; what is refused for two reasons or three; and tables of each sort, in order and late.

use crate::calls::{Size, MOST_BASE, MOST_GAPS};
use crate::captions::{bad_bytes, good_bytes, hostile, in_turn, SIGNS};
use crate::command::Name;
use crate::picture::{self, FIRST_LINE, MOST_BYTES, MOST_CAPTION};
use crate::pictures::MARK;
use crate::rule::{self, Bucket, Kind, TICKS};
use crate::script::Script;
use crate::session::BYTES;

/// Tables by chance.
const BY_CHANCE: usize = 500;

pub fn write(script: &mut Script) {
    script.heading("# pictures of captions of one byte and of two");
    for table in [vec![], example()] {
        script.lay_in_order(&table);
        script.short_captions();
    }
    script.heading("# pictures of captions by their length");
    script.captions_by_length();
    script.heading("# pictures of captions with a bad byte");
    script.bad_captions();
    script.heading("# pictures of hostile captions");
    for table in [vec![], example()] {
        script.lay_in_order(&table);
        for caption in hostile() {
            script.drawn(caption, 0);
            script.marked(caption, 1);
            script.marked(caption, -1);
        }
    }
    script.heading("# pictures in outputs of any length");
    script.outputs();
    script.heading("# pictures refused for more than one reason");
    script.refused_twice();
    script.heading("# pictures of tables of each sort");
    for (_, table) in tables() {
        script.each_way(&table, 27);
    }
    script.heading("# pictures of tables by chance");
    for _ in 0..BY_CHANCE {
        let table = script.any_table();
        script.each_way(&table, 2);
    }
}

/// The table of the first example of docs/PICTURE.md.
pub fn example() -> Vec<Bucket> {
    let bucket = |start, count, least, largest| Bucket {
        start,
        count,
        least,
        largest,
    };
    vec![bucket(0, 3, 1, 4), bucket(3, 2, 8, 9), bucket(5, 2, 2, 3)]
}

/// Buckets of these starts and counts, each at one of these values.
fn at_levels(ticks: &[(u64, u64)], levels: &[i64]) -> Vec<Bucket> {
    let bucket = |(&(start, count), &level): (&(u64, u64), &i64)| Bucket {
        start,
        count,
        least: level,
        largest: level,
    };
    ticks
        .iter()
        .zip(levels.iter().cycle())
        .map(bucket)
        .collect()
}

/// So many buckets of so many ticks, with so many missing behind each run of so many.
fn in_runs(count: u64, ticks: u64, of_run: u64, missing: u64) -> Vec<(u64, u64)> {
    (0..count)
        .map(|at| (at * ticks + at / of_run * missing, ticks))
        .collect()
}

/// Tables of each sort, by a name.
pub fn tables() -> Vec<(&'static str, Vec<Bucket>)> {
    let [least, most] = [i32::MIN, i32::MAX].map(i64::from);
    let relay = [60, 12_050, 7_400, 12_047, 61, 12_050];
    let last = TICKS - 1;
    let mut dip = at_levels(&in_runs(64, 31_250, 64, 0), &relay);
    dip[30].count -= 1;
    dip.insert(31, Bucket::of_reading(dip[30].end(), -9));
    let full = in_runs(512, TICKS / 512, 512, 0);
    vec![
        ("empty", vec![]),
        ("the example", example()),
        ("one tick", at_levels(&[(0, 1)], &[0])),
        ("one tick, the last of all", at_levels(&[(last, 1)], &[-1])),
        ("one bucket", at_levels(&[(3, 2)], &[least])),
        (
            "one bucket of every tick",
            at_levels(&[(0, TICKS)], &[most]),
        ),
        ("equal levels", at_levels(&in_runs(5, 7, 5, 0), &[12_050])),
        (
            "equal levels in two runs",
            at_levels(&in_runs(6, 9, 3, 4), &[-12_050]),
        ),
        (
            "both ends",
            at_levels(&in_runs(9, 5, 9, 0), &[least, most, 0, -1]),
        ),
        (
            "both ends of all",
            at_levels(&[(0, 1), (last, 1)], &[least, most]),
        ),
        (
            "lone at both ends",
            at_levels(&[(0, 1), (9_000_000, 1), (last, 1)], &[5, 6, 7]),
        ),
        ("below 0", at_levels(&in_runs(7, 3, 7, 0), &[-3, -8, -5])),
        ("a step of one", at_levels(&in_runs(4, 3, 4, 0), &[0, -1])),
        ("two million ticks and a dip of one", dip),
        (
            "two million ticks in runs",
            at_levels(&in_runs(64, 31_250, 4, 7), &relay),
        ),
        (
            "every tick in 512",
            at_levels(&full, &[least, 3, most, -8, 12_050]),
        ),
        (
            "256 lone readings",
            at_levels(&in_runs(256, 1, 1, 7_800), &[7, 8, 9, -4]),
        ),
        (
            "256 runs of three",
            at_levels(&in_runs(768, 5, 3, 1), &relay),
        ),
        (
            "256 runs of three, far apart",
            at_levels(&in_runs(768, 1_000, 3, 62_000), &[least, most, 9]),
        ),
        (
            "256 runs and no more ticks than that",
            at_levels(&in_runs(768, 1, 3, 1), &relay),
        ),
        (
            "an odd span",
            at_levels(&[(1, 3), (4, 4), (8, 4)], &[1, 2, 8]),
        ),
        (
            "an odd span with a gap",
            at_levels(&[(5, 9_800), (9_807, 1), (9_808, 1)], &[1, 2, 8]),
        ),
        (
            "a span of 9800",
            at_levels(&[(0, 1), (1, 9_798), (9_799, 1)], &[4, 5, 4]),
        ),
        (
            "a span of 9801",
            at_levels(&[(0, 1), (1, 9_799), (9_800, 1)], &[4, 5, 4]),
        ),
        (
            "a span of 3800 levels",
            at_levels(&in_runs(5, 2, 5, 0), &[0, 3_800, 1, 3_799, 1_900]),
        ),
        (
            "a span of 3801 levels",
            at_levels(&in_runs(5, 2, 5, 0), &[0, 3_801, 1, 3_800, 1_900]),
        ),
    ]
}

impl Script {
    /// The picture that the table at hand makes with these bytes, were they a caption, and so many bytes more or less of output.
    fn drawn(&mut self, caption: &[u8], more: i64) {
        self.file_from(0, caption);
        self.drawn_from(0, caption.len(), more);
    }

    fn drawn_from(&mut self, from: usize, letters: usize, more: i64) {
        let caption = &self.session.file[from..from + letters];
        let bytes = picture::text(&self.session.buckets(), caption).len() as u64;
        self.picture(from, letters, bytes.saturating_add_signed(more));
    }

    /// The same over marks.
    fn marked(&mut self, caption: &[u8], more: i64) {
        self.blank(BYTES as u64, MARK);
        self.drawn(caption, more);
    }

    /// By a size that it just fits, at the ticks from 0 on.
    fn lay_in_order(&mut self, table: &[Bucket]) {
        let base = (table.len() as u64).clamp(1, MOST_BASE);
        self.lay_by(Kind::InOrder, base, 0, table);
    }

    fn lay_by(&mut self, kind: Kind, base: u64, gaps: u64, table: &[Bucket]) {
        self.open_fitting(kind, Size::Base(base), gaps);
        self.lay_sound(table);
    }

    /// Those of two share the bytes between them.
    fn short_captions(&mut self) {
        let all: Vec<u8> = good_bytes().collect();
        self.file_from(0, &all);
        for from in 0..all.len() {
            self.drawn_from(from, 1, 0);
        }
        for sign in SIGNS {
            let pairs: Vec<u8> = good_bytes().flat_map(|byte| [sign, byte]).collect();
            self.file_from(0, &pairs);
            for from in 0..pairs.len() - 1 {
                self.drawn_from(from, 2, 0);
            }
            // The last byte before the sign.
            self.drawn(&[0x7E, sign], 0);
        }
    }

    fn captions_by_length(&mut self) {
        self.lay_in_order(&example());
        let long = in_turn(0, 65_536 + 300);
        let of = |byte: u8| vec![byte; 500];
        let mut kinds = vec![of(b'W'), of(b' '), in_turn(6, 500)];
        kinds.extend(SIGNS.map(of));
        // A sign on either side of where the lines part, and an entity over it.
        for (at, typed) in [
            (99, &b"&<"[..]),
            (98, b"&lt;"),
            (99, b"&amp;"),
            (199, b"''"),
        ] {
            let mut caption = of(b'-');
            caption[at..at + typed.len()].copy_from_slice(typed);
            kinds.push(caption);
        }
        for caption in kinds {
            for length in [
                0, 1, 2, 98, 99, 100, 101, 102, 150, 198, 199, 200, 201, 202, 255, 256, 257, 300,
                456,
            ] {
                self.drawn(&caption[..length], 0);
                if length > MOST_CAPTION {
                    self.marked(&caption[..length], 0);
                }
            }
        }
        self.file_from(0, &long);
        for more in [0, 1, FIRST_LINE, MOST_CAPTION] {
            for _ in 0..20 {
                let from = self.random.below(100) as usize;
                self.drawn_from(from, 65_536 + more, 0);
            }
        }
    }

    /// Alone, at the beginning, in the middle and at the end, of short captions and of the longest; those beside the good ones more often.
    fn bad_captions(&mut self) {
        let beside = [0x1F, 0x7F].into_iter().cycle().take(12);
        for (turn, bad) in bad_bytes().chain(beside).enumerate() {
            let table = match turn % 2 {
                0 => vec![],
                _ => example(),
            };
            self.lay_in_order(&table);
            let letters = [b'a', b'&', bad, b'b', b'~'];
            for (from, until) in [(2, 3), (2, 5), (0, 5), (0, 3)] {
                self.drawn(&letters[from..until], 0);
                self.marked(&letters[from..until], 0);
            }
            let mut long = in_turn(turn, MOST_CAPTION);
            let at = self.random.choice(&[0, 99, 100, 150, 199]);
            long[at] = bad;
            self.marked(&long, 0);
            self.marked(&long, -1);
        }
    }

    fn outputs(&mut self) {
        let captions = [
            vec![],
            b"relay <30> & \"ground\"".to_vec(),
            vec![b'"'; MOST_CAPTION],
        ];
        for (_, table) in tables() {
            self.lay_late(&table, 0, 0);
            for caption in &captions {
                for more in [0, 1, 2, 300, -1, -2, -7, -300] {
                    self.marked(caption, more);
                }
                for bytes in [0, 1, MOST_BYTES, MOST_BYTES - 1, BYTES, usize::MAX] {
                    self.blank(BYTES as u64, MARK);
                    self.picture(0, caption.len(), bytes as u64);
                }
            }
        }
    }

    /// Bad captions with short outputs and with long ones, and both with states and rooms that are not sound.
    fn refused_twice(&mut self) {
        let captions = [
            vec![],
            b"relay".to_vec(),
            b"relay\x7F".to_vec(),
            b"\n".to_vec(),
            vec![b'-'; MOST_CAPTION + 1],
            vec![b'&'; MOST_CAPTION + 1],
        ];
        for table in [vec![], example()] {
            for caption in &captions {
                self.lay_in_order(&table);
                for more in [0, 5, -1, -400, i64::MIN] {
                    self.marked(caption, more);
                }
                let fields = self.session.fields();
                let numbers = self.session.lent;
                for name in [
                    Name::Base,
                    Name::Gaps,
                    Name::Used,
                    Name::Runs,
                    Name::Readings,
                    Name::Edition,
                ] {
                    let field = fields[name as usize];
                    // One more would be the other edition.
                    let more = if name == Name::Edition { 2 } else { 1 };
                    self.state(name, field + more);
                    self.unsound(caption);
                    self.state(name, field);
                }
                self.room(numbers - 1);
                self.unsound(caption);
                self.room(numbers);
                let number = self.session.room[numbers - 1];
                self.set(numbers - 1, 1 << 32);
                self.unsound(caption);
                self.set(numbers - 1, number);
            }
        }
    }

    /// No output, one that is short and one that is long enough for any picture.
    fn unsound(&mut self, caption: &[u8]) {
        self.file_from(0, caption);
        for bytes in [0, 300, MOST_BYTES] {
            self.blank(BYTES as u64, MARK);
            self.picture(0, caption.len(), bytes as u64);
        }
    }

    /// Late, and in order where it is one run from tick 0 on; by the smallest sizes and by larger ones, so many of them.
    fn each_way(&mut self, table: &[Bucket], sizes: u64) {
        let mut caption = self.any_caption();
        for turn in 0..sizes {
            self.lay_late(table, turn, turn);
            self.marked(&caption, 3);
            if table.len() as u64 <= MOST_BASE && rule::first_fault(Kind::InOrder, table).is_none()
            {
                let base = (table.len() as u64 + turn).clamp(1, MOST_BASE);
                self.lay_by(Kind::InOrder, base, 0, table);
                self.marked(&caption, 3);
            }
            caption = self.any_caption();
            self.drawn(&caption, -1);
            self.drawn(&caption, 0);
        }
    }

    /// With so many buckets and runs more than there are, as far as there may be.
    fn lay_late(&mut self, table: &[Bucket], buckets: u64, runs: u64) {
        let there = rule::runs(table);
        let base = (table.len() as u64 - there + buckets).clamp(1, MOST_BASE);
        self.lay_by(Kind::Late, base, (there + runs).clamp(1, MOST_GAPS), table);
    }

    /// Now and then a hostile one, one with a typed entity, or one between spaces.
    pub(super) fn any_caption(&mut self) -> Vec<u8> {
        if self.chance(6) {
            let hostile = hostile();
            return self.random.choice(&hostile).to_vec();
        }
        let length = self
            .random
            .choice(&[0, 1, 7, 20, 99, 100, 101, 130, 199, 200]);
        let byte = |script: &mut Script| match script.random.below(4) {
            0 => script.random.choice(&SIGNS),
            _ => script.random.between(0x20, 0x7E) as u8,
        };
        let mut caption: Vec<u8> = (0..length).map(|_| byte(self)).collect();
        let entities = [&b"&lt;"[..], b"&amp;", b"&#39;", b"&amp;lt;"];
        let entity = self.random.choice(&entities);
        if length >= entity.len() && self.chance(5) {
            let at = self.random.below((length - entity.len()) as u64 + 1) as usize;
            caption[at..at + entity.len()].copy_from_slice(entity);
        }
        if length > 0 && self.chance(8) {
            caption[0] = b' ';
            caption[length - 1] = b' ';
        }
        caption
    }

    /// Of spans and levels of any size; one in three has no tick missing and begins at 0.
    fn any_table(&mut self) -> Vec<Bucket> {
        let unbroken = self.chance(3);
        let large = self.random.choice(&[1, 1, 3, 60, 5_000]);
        let most = self.random.choice(&[3, 9, 9, 40]);
        let mut table: Vec<Bucket> = Vec::new();
        let mut end = match unbroken {
            true => 0,
            false => self.random.choice(&[0, 0, 1, 7, 16_000_000]),
        };
        for _ in 0..self.random.between(1, most) {
            let missing = match unbroken {
                true => 0,
                false => self.random.choice(&[0, 0, 1, 2]) * large,
            };
            let start = end + missing;
            let count = match self.random.below(3) {
                0 => 1,
                _ => 1 + self.random.below(4 * large),
            };
            let level = self.any_level();
            let spread = match count {
                1 => 0,
                _ => self.random.between(0, 9),
            };
            table.push(Bucket {
                start,
                count,
                least: (level - spread).max(i64::from(i32::MIN)),
                largest: level,
            });
            end = start + count;
        }
        table
    }

    fn any_level(&mut self) -> i64 {
        let ends = [i32::MIN, i32::MIN + 1, -1, 0, 1, i32::MAX - 1, i32::MAX];
        match self.random.below(6) {
            0 => i64::from(self.random.choice(&ends)),
            1 => i64::from(self.random.number() as i32),
            2 => self.random.between(-15_000, 15_000),
            _ => self.random.between(-6, 6),
        }
    }
}
