//! The picture program: a caption before the lines of the listing program.

use second::listing::{draw, list};
use second::{captioned, picture};

fn drawn(input: &[u8]) -> String {
    String::from_utf8(draw(input).unwrap()).unwrap()
}

#[test]
fn a_bad_caption_is_refused_before_any_line() {
    assert_eq!(drawn(b"a\tb\n5\n"), "refused 0 15\n");
    assert_eq!(drawn(b"\r\nx\n"), "refused 0 15\n");
    assert_eq!(drawn(&[b'a'; 201]), "refused 0 15\n");
}

#[test]
fn lines_are_counted_behind_the_caption() {
    assert_eq!(drawn(b"steps 1\n5\nsteps 1\n"), "refused 2 14\n");
    assert_eq!(drawn(b"\n\n"), "refused 1 14\n");
    assert_eq!(drawn(b"late 2\nlate 1\n0 1\n0 1\n7"), "refused 3 11\n");
}

#[test]
fn without_a_line_feed_all_is_caption() {
    assert_eq!(draw(&b"5"[..]).unwrap(), picture::text(&[], b"5"));
    assert_eq!(draw(&b""[..]).unwrap(), picture::text(&[], b""));
}

/// Behind a good caption the picture comes where the listing comes, and the refused line is the listing's.
#[test]
fn the_listing_refuses_the_same_lines() {
    for input in captioned::inputs() {
        let mut parts = input.splitn(2, |&byte| byte == b'\n');
        let caption = parts.next().unwrap();
        let listed = String::from_utf8(list(parts.next().unwrap_or(&[])).unwrap()).unwrap();
        let drawn = drawn(&input);
        if !picture::is_caption(caption) {
            assert_eq!(drawn, "refused 0 15\n");
        } else if listed.starts_with("refused ") {
            assert_eq!(drawn, listed);
        } else {
            assert!(drawn.starts_with("<svg "));
        }
    }
}
