//! The picture of docs/PICTURE.md: one SVG text of a table of buckets with a caption, written from that page alone.

use crate::rule::{neighbours, Bucket};

/// The most bytes of a caption, and those of its first line.
pub const MOST_CAPTION: usize = 200;
pub const FIRST_LINE: usize = 100;
/// As many bytes as are enough for every picture.
pub const MOST_BYTES: usize = 22_866;

const HEAD: &str = r#"<svg xmlns="http://www.w3.org/2000/svg" viewBox="0 0 10000 5000" font-family="monospace" font-size="160" direction="ltr">
<rect width="10000" height="5000" fill="white"/>
<text x="100" y="4660" xml:space="preserve"><tspan x="100">"#;
const BETWEEN_LINES: &str = r#"</tspan><tspan x="100" dy="220">"#;
const BEHIND_CAPTION: &str = "</tspan></text>\n";
const NO_READINGS: &str = "<text x=\"100\" y=\"2160\">no readings</text>\n";
const CURVE: &str = r#"<g fill="none" stroke="black" stroke-width="30" stroke-linecap="square" stroke-miterlimit="1.5">
"#;
const END: &str = "</g>\n</svg>\n";

/// Whether a caption may stand in a picture.
pub fn is_caption(bytes: &[u8]) -> bool {
    bytes.len() <= MOST_CAPTION && bytes.iter().all(|byte| (0x20..=0x7E).contains(byte))
}

/// The whole text.
pub fn text(table: &[Bucket], caption: &[u8]) -> Vec<u8> {
    let (first, rest) = caption.split_at(caption.len().min(FIRST_LINE));
    let mut text = HEAD.as_bytes().to_vec();
    escape(first, &mut text);
    text.extend(BETWEEN_LINES.bytes());
    escape(rest, &mut text);
    text.extend(BEHIND_CAPTION.bytes());
    let frame = Frame::of(table);
    match &frame {
        Some(frame) => text.extend(frame.scale().bytes()),
        None => text.extend(NO_READINGS.bytes()),
    }
    text.extend(CURVE.bytes());
    if let Some(frame) = frame {
        for run in table.chunk_by(neighbours) {
            text.extend(frame.polyline(run).bytes());
        }
    }
    text.extend(END.bytes());
    text
}

fn escape(line: &[u8], text: &mut Vec<u8>) {
    for &byte in line {
        match byte {
            b'&' => text.extend(b"&amp;"),
            b'<' => text.extend(b"&lt;"),
            b'>' => text.extend(b"&gt;"),
            b'"' => text.extend(b"&quot;"),
            b'\'' => text.extend(b"&#39;"),
            _ => text.push(byte),
        }
    }
}

/// What the picture of a trace with buckets shows: ticks from the first on, so many, and levels from the highest to the lowest.
struct Frame {
    tick: u64,
    ticks: u64,
    top: i64,
    low: i64,
}

impl Frame {
    fn of(table: &[Bucket]) -> Option<Frame> {
        let levels = table.iter().map(Bucket::level);
        let tick = table.first()?.start;
        Some(Frame {
            tick,
            ticks: table.last()?.end() - tick,
            top: levels.clone().max()?,
            low: levels.min()?,
        })
    }

    fn x(&self, tick: u64) -> u64 {
        100 + (tick - self.tick) * 9_800 / self.ticks
    }

    fn y(&self, level: i64) -> i64 {
        match self.top - self.low {
            0 => 2_160,
            height => 260 + (self.top - level) * 3_800 / height,
        }
    }

    fn scale(&self) -> String {
        let Frame { tick, top, low, .. } = *self;
        let last = tick + self.ticks - 1;
        let [y_top, y_low] = [top, low].map(|level| self.y(level));
        format!(
            r#"<path stroke="silver" stroke-width="10" stroke-dasharray="20 60" d="M100 {y_top} H9900 M100 {y_low} H9900"/>
<text x="100" y="{y_top}" dy="-60">{top} mV</text>
<text x="100" y="{y_low}" dy="200">{low} mV</text>
<text x="9900" y="4260" text-anchor="end">ticks {tick} to {last}</text>
"#
        )
    }

    /// One broken line: of each bucket where it starts and where it ends, which is one unit further right at the least.
    fn polyline(&self, run: &[Bucket]) -> String {
        let mut line = String::from("<polyline points=\"");
        for bucket in run {
            let start = self.x(bucket.start);
            let end = self.x(bucket.end()).max(start + 1);
            let y = self.y(bucket.level());
            line.push_str(&format!("{start},{y} {end},{y} "));
        }
        line + "\"/>\n"
    }
}
