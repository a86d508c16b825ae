// What the plain programs of this folder share: the lines of a mesh text, read and judged one by one. They include it: as a module of
// its own it is compiled apart from what judges, and then a run takes a twentieth longer.

use std::fmt;
use std::io::{self, Read};

// A line has fewer bytes than this before its line end.
const LINE_LIMIT: usize = 128;
const MOST_LINES: u32 = 1_000_000_000;
const HIGHEST_VERTEX: u32 = 100_000_000;
const FARTHEST: u32 = 100_000;

// How much is read at a time.
const PIECE: usize = 1 << 16;

struct Fault {
    layer: &'static str,
    cause: u32,
    place: u32,
}

impl fmt::Display for Fault {
    fn fmt(&self, f: &mut fmt::Formatter) -> fmt::Result {
        write!(f, "fault {} {} {}", self.layer, self.cause, self.place)
    }
}

enum Line {
    // who lists the border needs no coordinates
    #[allow(dead_code)]
    Vertex([i32; 3]),
    Triangle([u32; 3]),
    Finalization(u32),
    Nothing,
}

// What stands in front of a text, and the text behind it; None where it is not there or not in range. What reads it is inlined: the
// compiler alone does not, and then it takes a tenth longer.
type Parsed<'a, T> = Option<(T, &'a [u8])>;

fn is_blank(byte: u8) -> bool {
    matches!(byte, b' ' | b'\t' | b'\r')
}

fn skip_blanks(mut text: &[u8]) -> &[u8] {
    while let [b' ' | b'\t' | b'\r', behind @ ..] = text {
        text = behind;
    }
    text
}

// The text behind one blank or more.
fn next_word(text: &[u8]) -> Option<&[u8]> {
    match text {
        [first, behind @ ..] if is_blank(*first) => Some(skip_blanks(behind)),
        _ => None,
    }
}

// A number of 1 to 9 digits.
#[inline(always)]
fn digits(text: &[u8]) -> Parsed<'_, u32> {
    let mut number = 0u32;
    let mut rest = text;
    while let [digit @ b'0'..=b'9', behind @ ..] = rest {
        number = number.wrapping_mul(10).wrapping_add(u32::from(digit - b'0'));
        rest = behind;
    }
    (1..=9).contains(&(text.len() - rest.len())).then_some((number, rest))
}

#[inline(always)]
fn distance(text: &[u8]) -> Parsed<'_, i32> {
    let (size, rest) = digits(text)?;
    (size <= FARTHEST).then_some((size as i32, rest))
}

#[inline(always)]
fn coordinate(text: &[u8]) -> Parsed<'_, i32> {
    match next_word(text)? {
        [b'-', behind @ ..] => distance(behind).map(|(size, rest)| (-size, rest)),
        word => distance(word),
    }
}

#[inline(always)]
fn vertex_number(text: &[u8]) -> Parsed<'_, u32> {
    let (number, rest) = digits(next_word(text)?)?;
    (1..=HIGHEST_VERTEX).contains(&number).then_some((number, rest))
}

fn line_end(text: &[u8]) -> Option<&[u8]> {
    match skip_blanks(text) {
        [b'\n', behind @ ..] => Some(behind),
        _ => None,
    }
}

// The first line of a text that has a line end and no blank in front; None if that line is at fault.
#[inline(always)]
fn line(text: &[u8]) -> Parsed<'_, Line> {
    match text {
        [b'v', rest @ ..] => {
            let (x, rest) = coordinate(rest)?;
            let (y, rest) = coordinate(rest)?;
            let (z, rest) = coordinate(rest)?;
            Some((Line::Vertex([x, y, z]), line_end(rest)?))
        }
        [b'f', rest @ ..] => {
            let (a, rest) = vertex_number(rest)?;
            let (b, rest) = vertex_number(rest)?;
            let (c, rest) = vertex_number(rest)?;
            Some((Line::Triangle([a, b, c]), line_end(rest)?))
        }
        [b'x', rest @ ..] => {
            let (number, rest) = vertex_number(rest)?;
            Some((Line::Finalization(number), line_end(rest)?))
        }
        [b'#' | b'\n', ..] => {
            let end = text.iter().position(|&byte| byte == b'\n')?;
            Some((Line::Nothing, &text[end + 1..]))
        }
        _ => None,
    }
}

// What is wrong with a word that should be a number, if anything is.
fn cause_of_word(word: &[u8], signed: bool) -> Option<u32> {
    let digits = if signed { word.strip_prefix(b"-").unwrap_or(word) } else { word };
    if !(1..=9).contains(&digits.len()) || !digits.iter().all(u8::is_ascii_digit) {
        return Some(5);
    }
    let number = digits.iter().fold(0, |number, digit| 10 * number + u32::from(digit - b'0'));
    let range = if signed { 0..=FARTHEST } else { 1..=HIGHEST_VERTEX };
    (!range.contains(&number)).then_some(6)
}

// What is wrong with the line in front of the window, which is at fault.
fn cause_of(window: &[u8; LINE_LIMIT]) -> u32 {
    let Some(end) = window.iter().position(|&byte| byte == b'\n') else {
        return 2;
    };
    let mut words = window[..end].split(|&byte| is_blank(byte)).filter(|word| !word.is_empty());
    let first = words.next().unwrap_or_default();
    let wanted = match first {
        b"v" | b"f" => 3,
        b"x" => 1,
        _ => return 3,
    };
    if words.clone().count() != wanted {
        return 4;
    }
    words.find_map(|word| cause_of_word(word, first == b"v")).expect("some word is at fault")
}

// What is made of the lines of a mesh text.
trait Mesh {
    fn judge(&mut self, place: u32, line: Line) -> Result<(), Fault>;

    // The place of the live vertex with the lowest number.
    fn lowest_live(&self) -> Option<u32>;

    // Writes what the lines taken so far gave, if they gave anything to write.
    fn write_out(&mut self) -> io::Result<()> {
        Ok(())
    }
}

// Takes the line in front of the window and answers its length with the line end.
fn take(mesh: &mut impl Mesh, place: u32, window: &[u8; LINE_LIMIT]) -> Result<usize, Fault> {
    if place > MOST_LINES {
        return Err(Fault { layer: "reader", cause: 7, place });
    }
    let Some((line, rest)) = line(skip_blanks(window)) else {
        return Err(Fault { layer: "reader", cause: cause_of(window), place });
    };
    mesh.judge(place, line)?;
    Ok(window.len() - rest.len())
}

// A stream may not end while a vertex is live.
fn end(mesh: &impl Mesh) -> Result<(), Fault> {
    match mesh.lowest_live() {
        Some(place) => Err(Fault { layer: "check", cause: 12, place }),
        None => Ok(()),
    }
}

// Takes all lines of the input. A line is taken once 128 bytes are there or the input has ended; then line ends stand behind it.
fn take_all(mesh: &mut impl Mesh, input: &mut impl Read) -> io::Result<Result<(), Fault>> {
    let mut buffer = vec![b'\n'; PIECE + LINE_LIMIT];
    let (mut at, mut end_at) = (0, 0);
    let mut place = 0;
    let mut closed = false;
    loop {
        while at + LINE_LIMIT <= end_at || closed && at < end_at {
            let window = buffer[at..].first_chunk().expect("a window is left");
            place += 1;
            match take(mesh, place, window) {
                Ok(length) => at += length,
                Err(fault) => return Ok(Err(fault)),
            }
        }
        if closed {
            return Ok(end(mesh));
        }
        mesh.write_out()?;
        buffer.copy_within(at..end_at, 0);
        (at, end_at) = (0, end_at - at);
        let read = input.read(&mut buffer[end_at..PIECE])?;
        end_at += read;
        closed = read == 0;
        buffer[end_at..end_at + LINE_LIMIT].fill(b'\n');
    }
}
