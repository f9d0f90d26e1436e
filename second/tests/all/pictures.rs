//! Pictures: as docs/PICTURE.md has them, read back, refused in their order; and wrong ways to draw them, which the script must show.

use crate::support::{loaded, random_trace, Trace, MARK_BYTE};
use second::calls::Size::{Base, Steps};
use second::calls::{self, Refusal, State, CAPTION, SHORT, UNSOUND};
use second::captions::{hostile, in_turn, SIGNS};
use second::command::{Command, Word};
use second::picture::{self, MOST_BYTES, MOST_CAPTION};
use second::random::Random;
use second::rule::{self, Bucket, Kind, TICKS};
use second::scripts;
use second::scripts::picture::{example, tables};
use second::session::{Answer, Session};
use std::cell::LazyCell;
use std::sync::LazyLock;

const PAGE: &str = include_str!("../../../docs/PICTURE.md");

/// The page's indented lines, those that follow each other together: the caption, the scale, the line of an empty trace, the curve, the two examples.
static BLOCKS: LazyLock<Vec<String>> = LazyLock::new(|| {
    let lines: Vec<&str> = PAGE.lines().collect();
    let indented = |line: &&str| line.starts_with("    ");
    let together = lines.chunk_by(|one, other| indented(one) == indented(other));
    together
        .filter(|lines| indented(&lines[0]))
        .map(|lines| {
            lines
                .iter()
                .map(|line| format!("{}\n", &line[4..]))
                .collect()
        })
        .collect()
});

/// What a trace's picture is, with marks behind it.
fn drawn(trace: &Trace, caption: &[u8]) -> Vec<u8> {
    let mut bytes = vec![MARK_BYTE; MOST_BYTES + 9];
    let length = calls::picture(trace.state, &trace.room, caption, &mut bytes).unwrap();
    let behind = bytes.split_off(length as usize);
    assert!(!behind.is_empty() && behind.iter().all(|&byte| byte == MARK_BYTE));
    bytes
}

#[test]
fn the_second_example_of_the_page() {
    let records = [
        (3, 1, -4, -4),
        (4, 2, -3, 0),
        (6, 1, 1, 1),
        (7, 5, 2, 5),
        (14, 1, 1, 1),
        (17, 3, -4, -3),
    ];
    let trace = loaded(Kind::Late, Steps(2), 3, &records);
    let text = drawn(&trace, b"<b>&amp;'");
    assert_eq!(String::from_utf8(text).unwrap(), BLOCKS[5]);
    assert_eq!(BLOCKS.len(), 6);
}

#[test]
fn the_example_of_the_page() {
    let readings = [(0, 1), (1, 4), (2, 2), (3, 9), (6, 2), (5, 3), (4, 8)];
    let trace = Trace::late_of(Steps(1), 2, &readings);
    assert_eq!(trace.buckets(), example());
    let text = drawn(&trace, b"relay <30> & \"ground\"");
    assert_eq!(String::from_utf8(text).unwrap(), BLOCKS[4]);
}

/// The lines of a picture from one of them on.
fn lines_from(text: &[u8], from: usize) -> String {
    let text = std::str::from_utf8(text).unwrap();
    let lines = text.split_inclusive('\n').skip(from);
    lines.collect()
}

#[test]
fn pictures_worked_by_hand() {
    let group = r#"<g fill="none" stroke="black" stroke-width="30" stroke-linecap="square" stroke-miterlimit="1.5">"#;
    for empty in [
        Trace::open(Kind::InOrder, Steps(1), 0),
        Trace::open(Kind::Late, Steps(1), 1),
    ] {
        let expected =
            format!("<text x=\"100\" y=\"2160\">no readings</text>\n{group}\n</g>\n</svg>\n");
        assert_eq!(lines_from(&drawn(&empty, b""), 3), expected);
    }
    // One bucket, the lowest level of all; then a reading at each end of the ticks and of the range.
    let scale = |y_top, top, y_low, low, ticks, lines| {
        format!(
            r#"<path stroke="silver" stroke-width="10" stroke-dasharray="20 60" d="M100 {y_top} H9900 M100 {y_low} H9900"/>
<text x="100" y="{y_top}" dy="-60">{top} mV</text>
<text x="100" y="{y_low}" dy="200">{low} mV</text>
<text x="9900" y="4260" text-anchor="end">ticks {ticks}</text>
{group}
{lines}
</g>
</svg>
"#
        )
    };
    let least = -2_147_483_648;
    let last = TICKS as u32 - 1;
    for (records, expected) in [
        (
            vec![(3, 2, least, least)],
            scale(2_160, least, 2_160, least, "3 to 4", r#"<polyline points="100,2160 9900,2160 "/>"#),
        ),
        (
            vec![(0, 1, least, least), (last, 1, i32::MAX, i32::MAX)],
            scale(
                260,
                2_147_483_647,
                4_060,
                least,
                "0 to 16777215",
                "<polyline points=\"100,4060 101,4060 \"/>\n<polyline points=\"9899,260 9900,260 \"/>",
            ),
        ),
        // Ticks and levels between: 3 ninths of 9,800 are 3,266 and two thirds, 2 sevenths of 3,800 are 1,085 and five sevenths.
        (
            vec![(1, 3, -4, -4), (4, 6, -3, 8)],
            scale(260, 2, 4_060, -4, "1 to 9", "<polyline points=\"100,4060 3366,4060 3366,260 9900,260 \"/>"),
        ),
        (
            vec![(1, 3, 7, 7), (5, 1, 5, 5), (6, 2, 0, 0)],
            scale(
                260,
                7,
                4_060,
                0,
                "1 to 7",
                "<polyline points=\"100,260 4300,260 \"/>\n<polyline points=\"5700,1345 7100,1345 7100,4060 9900,4060 \"/>",
            ),
        ),
    ] {
        let trace = loaded(Kind::Late, Steps(1), 2, &records);
        assert_eq!(lines_from(&drawn(&trace, b""), 3), expected);
    }
}

#[test]
fn a_caption_stands_in_two_lines() {
    let empty = Trace::open(Kind::InOrder, Steps(1), 0);
    for (length, first, rest) in [
        (0, 0, 0),
        (1, 1, 0),
        (100, 100, 0),
        (101, 100, 1),
        (200, 100, 100),
    ] {
        let text = drawn(&empty, &vec![b'W'; length]);
        let [first, rest] = [first, rest].map(|count| "W".repeat(count));
        let expected = format!(
            r#"<text x="100" y="4660" xml:space="preserve"><tspan x="100">{first}</tspan><tspan x="100" dy="220">{rest}</tspan></text>"#
        );
        assert_eq!(lines_from(&text, 2).lines().next(), Some(&expected[..]));
    }
}

/// As the page reads it: what stands before the next bracket behind each of two texts, each entity for one byte, once from left to right.
fn caption_of(text: &[u8]) -> Vec<u8> {
    let mut caption = Vec::new();
    let mut rest = std::str::from_utf8(text).unwrap();
    for behind in [r#"<tspan x="100">"#, r#"<tspan x="100" dy="220">"#] {
        rest = rest.split_once(behind).unwrap().1;
        let mut line = rest.split_once('<').unwrap().0;
        while !line.is_empty() {
            let entities = [
                ("&amp;", b'&'),
                ("&lt;", b'<'),
                ("&gt;", b'>'),
                ("&quot;", b'"'),
                ("&#39;", b'\''),
            ];
            let entity = entities.iter().find(|(entity, _)| line.starts_with(entity));
            let (read, byte) = entity.map_or((1, line.as_bytes()[0]), |(entity, byte)| {
                (entity.len(), *byte)
            });
            caption.push(byte);
            line = &line[read..];
        }
    }
    caption
}

fn random_caption(random: &mut Random) -> Vec<u8> {
    let length = random.choice(&[0, 1, 2, 40, 99, 100, 101, 200]);
    let byte = |random: &mut Random| match random.below(3) {
        0 => random.choice(&SIGNS),
        1 => random.choice(b"amplt;#39quog"),
        _ => random.between(0x20, 0x7E) as u8,
    };
    (0..length).map(|_| byte(random)).collect()
}

#[test]
fn captions_are_read_back_and_bring_no_bracket() {
    let mut random = Random::new(61);
    let hostile = hostile().into_iter().map(<[u8]>::to_vec);
    let mut captions: Vec<Vec<u8>> = hostile.collect();
    captions.extend((0..600).map(|_| random_caption(&mut random)));
    let brackets = |text: &[u8]| -> Vec<u8> {
        let bytes = text.iter().copied();
        bytes.filter(|byte| b"<>".contains(byte)).collect()
    };
    for caption in captions {
        let trace = random_trace(&mut random);
        let text = drawn(&trace, &caption);
        assert_eq!(caption_of(&text), caption);
        assert_eq!(brackets(&text), brackets(&drawn(&trace, b"")));
        // Nothing but the caption's line depends on it.
        assert_eq!(lines_from(&text, 3), lines_from(&drawn(&trace, b""), 3));
    }
}

#[test]
fn hostile_captions_are_captions() {
    assert!(hostile().len() >= 10);
    for caption in hostile() {
        assert!(!caption.is_empty() && picture::is_caption(caption));
        assert_eq!(
            hostile().iter().filter(|other| **other == caption).count(),
            1
        );
    }
}

#[test]
fn equal_buckets_make_one_picture() {
    for (name, table) in tables() {
        let records: Vec<(u32, u32, i32, i32)> = table
            .iter()
            .map(|bucket| {
                let Bucket {
                    start,
                    count,
                    least,
                    largest,
                } = *bucket;
                (start as u32, count as u32, least as i32, largest as i32)
            })
            .collect();
        let caption = in_turn(table.len(), 120);
        let text = picture::text(&table, &caption);
        let gaps = rule::runs(&table).max(1);
        for (base, gaps) in [
            (512, gaps),
            (512, 256),
            (table.len().clamp(1, 512) as u64, gaps),
        ] {
            let late = loaded(Kind::Late, Base(base), gaps, &records);
            assert_eq!(drawn(&late, &caption), text, "{name}");
        }
        if rule::first_fault(Kind::InOrder, &table).is_none() && table.len() <= 512 {
            let in_order = loaded(Kind::InOrder, Base(512), 0, &records);
            assert_eq!(drawn(&in_order, &caption), text, "{name}");
        }
    }
}

#[test]
fn a_run_is_one_broken_line_between_the_ends_of_its_buckets() {
    for (name, table) in tables() {
        let text = String::from_utf8(picture::text(&table, b"")).unwrap();
        let lines: Vec<Vec<(i64, i64)>> = text
            .lines()
            .filter_map(|line| {
                line.strip_prefix("<polyline points=\"")?
                    .strip_suffix(" \"/>")
            })
            .map(|points| {
                let point = |point: &str| {
                    let (x, y) = point.split_once(',').unwrap();
                    (x.parse().unwrap(), y.parse().unwrap())
                };
                points.split(' ').map(point).collect()
            })
            .collect();
        assert_eq!(lines.len() as u64, rule::runs(&table), "{name}");
        let starts_run = |at: usize| at == 0 || table[at - 1].end() != table[at].start;
        let mut line = 0;
        let mut at_point = 0;
        for (at, bucket) in table.iter().enumerate() {
            if starts_run(at) {
                line += 1;
                at_point = 0;
            }
            let [start, end] = [0, 1].map(|more| lines[line - 1][at_point + more]);
            // Within a unit of where the numbers say, both ends at one level, and not without width.
            let ticks = (table[table.len() - 1].end() - table[0].start) as f64;
            let x = |tick: u64| 100.0 + (tick - table[0].start) as f64 * 9_800.0 / ticks;
            assert!((start.0 as f64 - x(bucket.start)).abs() < 1.0, "{name}");
            assert!((end.0 as f64 - x(bucket.end())).abs() <= 1.0, "{name}");
            assert!(start.0 < end.0 && start.1 == end.1, "{name}");
            assert!((100..=9_900).contains(&start.0) && end.0 <= 9_900, "{name}");
            assert!((260..=4_060).contains(&start.1), "{name}");
            at_point += 2;
        }
    }
}

#[test]
fn no_picture_is_longer_than_is_said() {
    let caption = [b'"'; MOST_CAPTION];
    let longest = tables()
        .iter()
        .map(|(_, table)| picture::text(table, &caption).len())
        .max();
    // The bound counts each number as long as it can be, and some at the left are shorter.
    assert!(longest > Some(MOST_BYTES - 900), "{longest:?}");
    assert!(longest <= Some(MOST_BYTES), "{longest:?}");
}

#[test]
fn a_picture_refuses_4_and_15_and_13() {
    let trace = Trace::late_of(Steps(1), 2, &[(0, 1), (5, 2)]);
    let mut unsound = trace.state;
    unsound.runs = 1;
    let good = picture::text(&trace.buckets(), b"ok").len();
    let bad: [&[u8]; 8] = [
        b"\x7F",
        b"\x1F",
        b"a\tb",
        b"ab\n",
        b"\0",
        b"caf\xC3\xA9",
        &[b'-'; 201],
        &[b'&'; 65_636],
    ];
    let asked = |state: State, caption: &[u8], length: usize| {
        let mut bytes = vec![MARK_BYTE; length];
        let answer = calls::picture(state, &trace.room, caption, &mut bytes);
        if answer.is_err() {
            assert!(bytes.iter().all(|&byte| byte == MARK_BYTE));
        }
        answer
    };
    for length in [0, good - 1, good, MOST_BYTES] {
        for caption in bad {
            assert_eq!(asked(unsound, caption, length), Err(Refusal::of(UNSOUND)));
            assert_eq!(
                asked(trace.state, caption, length),
                Err(Refusal::of(CAPTION))
            );
        }
        assert_eq!(asked(unsound, b"ok", length), Err(Refusal::of(UNSOUND)));
        let answer = match length < good {
            true => Err(Refusal::of(SHORT)),
            false => Ok(good as u64),
        };
        assert_eq!(asked(trace.state, b"ok", length), answer);
    }
    for caption in [&[b' '; 200][..], &[b'~'; 200], b" ", b"~"] {
        assert!(asked(trace.state, caption, MOST_BYTES).is_ok());
    }
}

/// What a call for a picture is given, its output as it was.
struct Given<'a> {
    state: State,
    room: &'a [i64],
    caption: &'a [u8],
    output: Vec<u8>,
}

/// What it answers, and the output then.
type Told = (Result<u64, u32>, Vec<u8>);

/// A way to draw, which takes the page's own lines and puts what they name in its place.
#[derive(Clone, Copy)]
struct Way {
    is_caption: fn(&[u8]) -> bool,
    escaped: fn(&str) -> String,
    first_line: usize,
    level: fn(&Bucket) -> i64,
    /// How far right and how far down, by the parts and the whole.
    right: fn(u64, u64) -> u64,
    down: fn(i64, i64) -> i64,
    end: fn(u64, u64) -> u64,
    one_run: fn(&Bucket, &Bucket) -> bool,
    refusals: [u32; 3],
    clears_behind: bool,
    writes_what_fits: bool,
}

const RIGHT: Way = Way {
    is_caption: |bytes| {
        bytes.len() <= 200 && bytes.iter().all(|&byte| (b' '..=b'~').contains(&byte))
    },
    escaped: |line| {
        let line = line
            .replace('&', "&amp;")
            .replace('<', "&lt;")
            .replace('>', "&gt;");
        line.replace('"', "&quot;").replace('\'', "&#39;")
    },
    first_line: 100,
    level: Bucket::level,
    right: |part, whole| part * 9_800 / whole,
    down: |part, whole| part * 3_800 / whole,
    end: |start, end| end.max(start + 1),
    one_run: |one, other| one.end() == other.start,
    refusals: [UNSOUND, CAPTION, SHORT],
    clears_behind: false,
    writes_what_fits: false,
};

impl Way {
    fn text(&self, table: &[Bucket], caption: &[u8]) -> Vec<u8> {
        // Latin 1, so that bytes which are no caption have a text too.
        let typed =
            |bytes: &[u8]| -> String { bytes.iter().map(|&byte| char::from(byte)).collect() };
        let (first, rest) = caption.split_at(caption.len().min(self.first_line));
        let [first, rest] = [first, rest].map(|line| (self.escaped)(&typed(line)));
        // What is typed is put in last, so that nothing in it is taken for a name.
        let mut text = BLOCKS[0].clone();
        let at = text.find("FIRST").unwrap();
        text.replace_range(at..at + 5, "");
        let behind = text.find("REST").unwrap();
        text.replace_range(behind..behind + 4, &rest);
        text.insert_str(at, &first);
        let curve: Vec<&str> = BLOCKS[3].split_inclusive('\n').collect();
        match table {
            [] => text += &format!("{}{}", BLOCKS[2], curve[0]),
            [begin, ..] => {
                let end = &table[table.len() - 1];
                let levels = table.iter().map(self.level);
                let [top, low] = [levels.clone().max().unwrap(), levels.min().unwrap()];
                let whole = end.end() - begin.start;
                let x = |tick: u64| 100 + (self.right)(tick - begin.start, whole);
                let y = |level: i64| match top == low {
                    true => 2_160,
                    false => 260 + (self.down)(top - level, top - low),
                };
                let named = [
                    ("YTOP", y(top)),
                    ("YLOW", y(low)),
                    ("TOP", top),
                    ("LOW", low),
                    ("TICK", begin.start as i64),
                    ("LAST", end.end() as i64 - 1),
                ];
                text += &named
                    .iter()
                    .fold(BLOCKS[1].clone(), |text, (name, number)| {
                        text.replace(name, &number.to_string())
                    });
                text += curve[0];
                for run in table.chunk_by(self.one_run) {
                    let mut points = String::new();
                    for bucket in run {
                        let start = x(bucket.start);
                        let y = y((self.level)(bucket));
                        for x in [start, (self.end)(start, x(bucket.end()))] {
                            points += &format!("{x},{y} ");
                        }
                    }
                    text += &curve[1].replace("X,Y X,Y X,Y X,Y ", &points);
                }
            }
        }
        text += &curve[2..].concat();
        text.chars().map(|letter| letter as u8).collect()
    }

    fn answer(&self, given: &Given) -> Told {
        let sound = calls::worst(given.state, given.room).is_ok();
        let table = match sound {
            true => buckets(given.state, given.room),
            false => Vec::new(),
        };
        let text = LazyCell::new(|| self.text(&table, given.caption));
        let mut output = given.output.clone();
        for refusal in self.refusals {
            let holds = match refusal {
                UNSOUND => !sound,
                CAPTION => !(self.is_caption)(given.caption),
                _ => output.len() < text.len(),
            };
            if holds {
                if self.writes_what_fits && refusal == SHORT {
                    output.copy_from_slice(&text[..given.output.len()]);
                }
                return (Err(refusal), output);
            }
        }
        output[..text.len()].copy_from_slice(&text);
        if self.clears_behind {
            output[text.len()..].fill(0);
        }
        (Ok(text.len() as u64), output)
    }
}

fn buckets(state: State, room: &[i64]) -> Vec<Bucket> {
    let bucket = |slot: &[i64]| Bucket {
        start: slot[0] as u64,
        count: slot[1] as u64,
        least: slot[2],
        largest: slot[3],
    };
    room.chunks(4)
        .take(state.used as usize)
        .map(bucket)
        .collect()
}

/// The five signs but for one of them.
fn escaped_but(line: &str, sign: char) -> String {
    let letter = |letter: char| match letter == sign {
        true => letter.to_string(),
        false => (RIGHT.escaped)(&letter.to_string()),
    };
    line.chars().map(letter).collect()
}

const WRONG: [(&str, Way); 24] = [
    (
        "& as it is",
        Way {
            escaped: |line| escaped_but(line, '&'),
            ..RIGHT
        },
    ),
    (
        "< as it is",
        Way {
            escaped: |line| escaped_but(line, '<'),
            ..RIGHT
        },
    ),
    (
        "> as it is",
        Way {
            escaped: |line| escaped_but(line, '>'),
            ..RIGHT
        },
    ),
    (
        "\" as it is",
        Way {
            escaped: |line| escaped_but(line, '"'),
            ..RIGHT
        },
    ),
    (
        "' as it is",
        Way {
            escaped: |line| escaped_but(line, '\''),
            ..RIGHT
        },
    ),
    (
        "escaped twice",
        Way {
            escaped: |line| (RIGHT.escaped)(&(RIGHT.escaped)(line)),
            ..RIGHT
        },
    ),
    (
        "a typed entity as it is",
        Way {
            escaped: |line| {
                (RIGHT.escaped)(line)
                    .replace("&amp;lt;", "&lt;")
                    .replace("&amp;amp;", "&amp;")
            },
            ..RIGHT
        },
    ),
    (
        "0x7F taken",
        Way {
            is_caption: |bytes| {
                bytes.len() <= 200 && bytes.iter().all(|&byte| (b' '..=0x7F).contains(&byte))
            },
            ..RIGHT
        },
    ),
    (
        "0x1F taken",
        Way {
            is_caption: |bytes| {
                bytes.len() <= 200 && bytes.iter().all(|&byte| (0x1F..=b'~').contains(&byte))
            },
            ..RIGHT
        },
    ),
    (
        "bytes from 0x80 on taken",
        Way {
            is_caption: |bytes| {
                bytes.len() <= 200 && bytes.iter().all(|&byte| byte >= b' ' && byte != 0x7F)
            },
            ..RIGHT
        },
    ),
    (
        "the last byte not looked at",
        Way {
            is_caption: |bytes| {
                bytes.len() <= 200 && (RIGHT.is_caption)(&bytes[..bytes.len().saturating_sub(1)])
            },
            ..RIGHT
        },
    ),
    (
        "201 taken",
        Way {
            is_caption: |bytes| {
                (RIGHT.is_caption)(&bytes[bytes.len().min(1)..])
                    && (RIGHT.is_caption)(&bytes[..bytes.len().min(1)])
            },
            ..RIGHT
        },
    ),
    (
        "200 refused",
        Way {
            is_caption: |bytes| bytes.len() < 200 && (RIGHT.is_caption)(bytes),
            ..RIGHT
        },
    ),
    (
        "the length taken by its lowest 16 bits",
        Way {
            is_caption: |bytes| (RIGHT.is_caption)(&bytes[..bytes.len() % 65_536]),
            ..RIGHT
        },
    ),
    (
        "a first line of 99",
        Way {
            first_line: 99,
            ..RIGHT
        },
    ),
    (
        "13 before 15",
        Way {
            refusals: [UNSOUND, SHORT, CAPTION],
            ..RIGHT
        },
    ),
    (
        "15 before 4",
        Way {
            refusals: [CAPTION, UNSOUND, SHORT],
            ..RIGHT
        },
    ),
    (
        "written as far as it fits",
        Way {
            writes_what_fits: true,
            ..RIGHT
        },
    ),
    (
        "what lies behind cleared",
        Way {
            clears_behind: true,
            ..RIGHT
        },
    ),
    (
        "a line across a missing tick",
        Way {
            one_run: |_, _| true,
            ..RIGHT
        },
    ),
    (
        "a lone reading without width",
        Way {
            end: |_, end| end,
            ..RIGHT
        },
    ),
    (
        "ticks rounded up",
        Way {
            right: |part, whole| (part * 9_800).div_ceil(whole),
            ..RIGHT
        },
    ),
    (
        "levels rounded up",
        Way {
            down: |part, whole| (part * 3_800 + whole - 1) / whole,
            ..RIGHT
        },
    ),
    (
        "the middle of a bucket cut toward zero",
        Way {
            level: |bucket| (bucket.least + bucket.largest) / 2,
            ..RIGHT
        },
    ),
];

/// So many pictures of the script must tell each wrong way from the right one.
const TOLD_APART: usize = 20;

#[test]
fn the_script_tells_wrong_ways_apart() {
    let script = scripts::of_name("picture").unwrap();
    let mut session = Session::new();
    let mut differences = [0; WRONG.len()];
    let mut turn = 0;
    for line in script.text.lines() {
        let Some(command) = Command::of_line(line).unwrap() else {
            continue;
        };
        if command.word != Word::Picture {
            session.obey(&command);
            continue;
        }
        let output = session.lent_output(&command).to_vec();
        let Answer::Wrote(answer) = session.obey(&command) else {
            panic!("{line}");
        };
        let given = Given {
            state: session.state,
            room: session.lent_numbers(),
            caption: session.lent_caption(&command),
            output,
        };
        let right = (
            answer.map_err(|refusal| refusal.number),
            session.lent_output(&command).to_vec(),
        );
        assert!(RIGHT.answer(&given) == right, "{line}");
        // Larger tables take their time.
        turn += 1;
        if turn % 2 > 0 || session.state.used > 16 {
            continue;
        }
        for ((_, way), differs) in WRONG.iter().zip(&mut differences) {
            *differs += usize::from(way.answer(&given) != right);
        }
    }
    for ((name, _), differs) in WRONG.iter().zip(differences) {
        assert!(differs >= TOLD_APART, "{name}: {differs}");
    }
}
