//! The language of scripts: text, one command a line, a word and then numbers by name, one space apart: `late tick=3 value=-5`.
//!
//! A number is decimal, of 64 bits; one below 0 stands by its bits in two's complement. A name that is not given is the field of that name in the
//! state at hand or in the tally, any other 0: so are `size` and `by`, which no state has. Where a field has fewer bits, the lowest of the number are its. A line that begins
//! with `#` is a heading for what follows it, and is no command. Words and names have at most eight letters.
//!
//! A script has a state at hand, of seven fields, a room of 8,192 numbers of which the first so many are lent, a file of 655,360 bytes of which the
//! first so many are lent, a row of 4,096 buckets, an output of 65,536 bytes, a list of 4,096 ticks and 4,096 values and a tally, all 0 at first.
//! Where a command names more of them than there is, all there is is meant.
//!
//! | Word | Names | What it does |
//! |---|---|---|
//! | `open` | `kind size gaps by edition` | opens a trace with these settings: `size` is B where `by` is 0, the base limit C where it is any other number |
//! | `next` | `value` | the next reading |
//! | `late` | `tick value` | a late reading |
//! | `nexttold`, `latetold` | as `next`, `late` | the same with the tally lent |
//! | `nextmany` | `from values` | the next readings: so many values of the list are lent, from an index on |
//! | `latemany` | `from ticks values` | late readings: so many ticks of the list are lent and so many values, both from an index on |
//! | `lookup` | `tick` | |
//! | `over` | `first last bar` | the first bucket over the bar among those of a range of ticks |
//! | `worst` | | the worst error |
//! | `row` | `places` | so many buckets of the row are lent |
//! | `save` | `bytes` | so many bytes of the output are lent |
//! | `picture` | `from letters bytes` | so many bytes of the file are lent as the caption, from an index on, and so many bytes of the output |
//! | `load` | `kind size gaps by edition` | loads the lent file with these settings, `size` and `by` as in `open` |
//! | `replay` | `size gaps by edition` | opens a late trace, `size` and `by` as in `open`, and replays the lent file into it, a recording of the logger |
//! | `level`, `error` | `start count least largest` | of that bucket |
//! | `show` | | no call: the state at hand and every lent number |
//! | `print` | | no call: of the output the bytes that the last picture wrote, as they are, none where it was refused |
//! | `state` | `kind base gaps used runs readings edition` | makes these the state at hand |
//! | `tally` | `accepted refused merges` | makes these the tally |
//! | `room` | `numbers` | so many numbers of the room are lent from now on |
//! | `fill` | `value` | every lent number of the room is this |
//! | `set` | `at value` | the number at an index |
//! | `slot` | `at start count least largest` | the four numbers of a slot |
//! | `file` | `bytes` | so many bytes of the file are lent from now on |
//! | `byte` | `at value` | the byte of the file at an index |
//! | `record` | `at start count least largest` | the sixteen bytes of a record of the file |
//! | `frame` | `at counter value` | the six bytes of a record of a recording; none where they pass the file's end |
//! | `copy` | `from to count` | so many records of the file, which may overlap; none where either end passes the file's |
//! | `take` | `bytes` | the first so many bytes of the output become the file, and are lent |
//! | `blank` | `bytes value` | the first so many bytes of the output, and of the row's buckets as they lie in memory, are this |
//! | `reading` | `at tick value` | the tick and the value of the list at an index |
//!
//! What would stand past the end of room, file or list is dropped. The kind is 0 in order and any other number late. An accepted call that answers a
//! state leaves it at hand, and so do many readings of which one is accepted; a refused one leaves the state at hand as it was.
//!
//! The words from `open` to `show` write one line each, of the word and numbers one space apart. First what is answered, whole: a refusal, 0 where
//! the call was accepted, and its place; then the seven fields of a state (of a refused reading those that were given, of many readings those after
//! the accepted ones, of a refused open, load or replay zeros), behind those of a replay how many records were accepted and how many refused, behind
//! those of many readings how many were accepted; or a lookup's level, error, least and largest, or 1 with the index and the start of the bucket that
//! is over, three zeros where none is, or the worst error, or how many buckets or bytes of a picture were written, each 0 where refused. Then what was
//! lent: ` room`, a checksum of the lent numbers; of a told reading ` tally` and its three counts; of a row, a save, a load or a replay ` row`,
//! ` output` or ` file` and the checksum of what was lent, of a picture ` caption` and ` output`. `level` and `error` write the number alone; `show` the
//! state at hand and every lent number. `print` writes no line of its own but those of the picture.
//!
//! A checksum is sixteen hex digits. It begins with how many numbers there are; for each number, by its 64 bits, exclusive or with it, then
//! exclusive or with itself moved 13 up, then 7 down, then 17 up, then 11,400,714,819,323,198,485 is added, all modulo 2^64. Bytes go as one number
//! each; a bucket as its start, count, least and largest.

use std::fmt::Write;

macro_rules! named {
    ($what:ident: $($case:ident $text:literal,)*) => {
        #[derive(Clone, Copy, Debug, PartialEq, Eq, PartialOrd, Ord)]
        pub enum $what {
            $($case),*
        }

        impl $what {
            pub const ALL: &'static [$what] = &[$($what::$case),*];

            pub fn text(self) -> &'static str {
                match self {
                    $($what::$case => $text),*
                }
            }

            pub fn of_text(text: &str) -> Option<$what> {
                match text {
                    $($text => Some($what::$case),)*
                    _ => None,
                }
            }
        }
    };
}

named! { Word:
    Open "open",
    Next "next",
    Late "late",
    NextTold "nexttold",
    LateTold "latetold",
    NextMany "nextmany",
    LateMany "latemany",
    Lookup "lookup",
    Over "over",
    Worst "worst",
    Row "row",
    Save "save",
    Picture "picture",
    Load "load",
    Replay "replay",
    Level "level",
    Error "error",
    Show "show",
    Print "print",
    State "state",
    Tally "tally",
    Room "room",
    Fill "fill",
    Set "set",
    Slot "slot",
    File "file",
    Byte "byte",
    Record "record",
    Frame "frame",
    Copy "copy",
    Take "take",
    Blank "blank",
    Reading "reading",
}

named! { Name:
    Kind "kind",
    Base "base",
    Gaps "gaps",
    Used "used",
    Runs "runs",
    Readings "readings",
    Edition "edition",
    Accepted "accepted",
    Refused "refused",
    Merges "merges",
    Numbers "numbers",
    Places "places",
    Bytes "bytes",
    At "at",
    From "from",
    To "to",
    Start "start",
    Count "count",
    Least "least",
    Largest "largest",
    Tick "tick",
    Value "value",
    First "first",
    Last "last",
    Bar "bar",
    Size "size",
    By "by",
    Counter "counter",
    Ticks "ticks",
    Values "values",
    Letters "letters",
}

impl Word {
    /// A call of the library, and not only a change or a show.
    pub fn is_call(self) -> bool {
        self <= Word::Error
    }
}

impl Name {
    fn is_signed(self) -> bool {
        matches!(self, Name::Least | Name::Largest | Name::Value | Name::Bar)
    }
}

/// A word and the numbers that are given.
#[derive(Clone, Copy, Debug, PartialEq, Eq)]
pub struct Command {
    pub word: Word,
    given: u32,
    numbers: [u64; Name::ALL.len()],
}

impl Command {
    pub fn new(word: Word, named: &[(Name, u64)]) -> Command {
        let mut command = Command {
            word,
            given: 0,
            numbers: [0; Name::ALL.len()],
        };
        for &(name, number) in named {
            command.give(name, number);
        }
        command
    }

    /// Nothing for a heading.
    pub fn of_line(line: &str) -> Result<Option<Command>, String> {
        if line.starts_with('#') {
            return Ok(None);
        }
        let wrong = || format!("not a command: {line}");
        let mut parts = line.split(' ');
        let word = parts.next().and_then(Word::of_text).ok_or_else(wrong)?;
        let mut command = Command::new(word, &[]);
        for part in parts {
            let (name, number) = part.split_once('=').ok_or_else(wrong)?;
            let name = Name::of_text(name).ok_or_else(wrong)?;
            let number = number_of_text(number).ok_or_else(wrong)?;
            command.give(name, number);
        }
        Ok(Some(command))
    }

    fn give(&mut self, name: Name, number: u64) {
        self.given |= 1 << name as u32;
        self.numbers[name as usize] = number;
    }

    pub fn given(&self, name: Name) -> Option<u64> {
        (self.given >> name as u32 & 1 == 1).then(|| self.numbers[name as usize])
    }

    /// For names that no state and no tally has.
    pub fn number(&self, name: Name) -> u64 {
        self.given(name).unwrap_or(0)
    }

    pub fn write_line(&self, text: &mut String) {
        text.push_str(self.word.text());
        for &name in Name::ALL {
            if let Some(number) = self.given(name) {
                let written = if name.is_signed() {
                    write!(text, " {}={}", name.text(), number as i64)
                } else {
                    write!(text, " {}={number}", name.text())
                };
                written.expect("a string takes any text");
            }
        }
        text.push('\n');
    }
}

fn number_of_text(text: &str) -> Option<u64> {
    match text.strip_prefix('-') {
        None => text.parse().ok(),
        Some(digits) => digits.parse().ok().map(u64::wrapping_neg),
    }
}
