//! Inputs for the picture program: a caption, good or bad, before a few lines or none; and inputs of the listing program behind
//! one of many captions.

use crate::lines;

/// Lines of a late trace, of one in order without a last line feed, lines with a refused one, none, and no line feed behind the caption.
const BEHIND: [&str; 5] = [
    "\nsteps 1\nlate 2\n0 1\n1 4\n2 2\n3 9\n6 2\n5 3\n4 8\n",
    "\n-3\n0\n9",
    "\n5\nsteps 1\n",
    "\n",
    "",
];

/// Lengths at the bounds of a caption and of its first line, and longer than one read or two.
const LENGTHS: [usize; 15] = [
    0, 1, 2, 99, 100, 101, 199, 200, 201, 202, 300, 65_535, 65_536, 65_537, 140_000,
];

/// What could be taken for a part of the picture, of a text with numbers in it, or of a line of the trace.
const HOSTILE: [&str; 14] = [
    "</tspan></text><script>alert(1)</script>",
    "a<b & c>d \"e\" 'f'",
    "&lt;&gt;&amp;&quot;&#39;&#60;",
    "&&&&;;;;",
    "<!-- x --><![CDATA[ ]]>",
    "\"/><polyline points=\"0,0 \"/>",
    "% %d %s %% %n 100%",
    "   three spaces before and behind   ",
    "steps 4",
    "late 2",
    "refused 1 14",
    "0",
    "~!@#$^*()_+`-={}|[]\\:;?,./",
    "total 0 0 0",
];

/// Every byte that no caption may have; a line feed would end it.
fn bad_bytes() -> impl Iterator<Item = u8> {
    (0..=255u8).filter(|byte| !(0x20..=0x7E).contains(byte) && *byte != b'\n')
}

/// All of them.
pub fn inputs() -> impl Iterator<Item = Vec<u8>> {
    made().chain(behind_captions())
}

/// Every fifth of the listing's inputs, each behind a good caption of another length, so that the reads cut its lines at other places.
fn behind_captions() -> impl Iterator<Item = Vec<u8>> {
    (0..lines::inputs())
        .step_by(5)
        .enumerate()
        .map(|(at, number)| {
            let caption = printable(at * 2 % 201);
            [&caption[..], b"\n", &lines::input(number)].concat()
        })
}

/// Bytes that a caption may have, all of them in turn.
fn printable(length: usize) -> Vec<u8> {
    (0x20..=0x7E).cycle().take(length).collect()
}

fn made() -> impl Iterator<Item = Vec<u8>> {
    let long = LENGTHS.iter().map(|&length| printable(length));
    let hostile = HOSTILE.iter().map(|caption| caption.as_bytes().to_vec());
    let behind = |caption: Vec<u8>| BEHIND.map(|lines| [&caption[..], lines.as_bytes()].concat());
    let bad = bad_bytes().enumerate().map(|(at, byte)| {
        // At the front, in the middle and at the end, before lines of each kind.
        let caption = [vec![b'a'; at % 3], vec![byte], vec![b'z'; at / 3 % 2]].concat();
        [&caption[..], BEHIND[at % BEHIND.len()].as_bytes()].concat()
    });
    // A bad byte behind more than a caption may have, and as the last that it may have.
    let late = [200, 199, 1].map(|at| [printable(at), vec![b'\t'], b"\nx\n".to_vec()].concat());
    long.chain(hostile).flat_map(behind).chain(bad).chain(late)
}
