//! The yardstick for texts: an input text read and written again, as a careful programmer would write it in an afternoon. Digits are
//! looked up in a table of 256 characters, a line is decoded into bytes and judged, and once all are judged the lines are decoded
//! again and stored. It tries what the reader and the input writer try, in the same order.

const ENTRY: usize = 21;
const PAYLOAD: [usize; 8] = [0, 3, 4, ENTRY, 2, 16, 2, 3];
const DIGITS: &[u8; 16] = b"0123456789abcdef";

#[derive(Clone, Copy)]
pub struct Link {
    pub a: u8,
    pub b: u8,
    pub tally: u16,
}

/// What was read: the head's numbers, and how many links and cuts.
struct Read {
    n: u8,
    k: u16,
    links: usize,
    cuts: usize,
}

/// A refusal's number and place.
pub type Refusal = (u32, u32);

/// The longest text's way: read into link space and record space, then written again from the whole of both.
pub fn again(text: &[u8], out: &mut [u8]) -> Result<usize, Refusal> {
    let mut links = [Link { a: 0, b: 0, tally: 0 }; 4096];
    let mut space = [0; 127 * ENTRY];
    let read = read(text, &mut links, &mut space)?;
    debug_assert!(read.n == 128 && read.k == 3);
    write(128, 3, &links, &space, out)
}

/// The digit that a character is, 16 where it is none.
const VALUES: [u8; 256] = {
    let mut values = [16; 256];
    let mut digit = 0;
    while digit < 16 {
        values[DIGITS[digit] as usize] = digit as u8;
        digit += 1;
    }
    values
};

fn value(character: u8) -> u8 {
    VALUES[character as usize]
}

/// Decodes the frame at the front of a text; gives how many bytes it has, if it is well formed.
fn decode(text: &[u8], bytes: &mut [u8; 23]) -> Option<usize> {
    let (high, low) = (value(*text.first()?), value(*text.get(1)?));
    let kind = (high as usize) << 4 | low as usize;
    if kind == 0 || kind > 7 {
        return None;
    }
    let size = PAYLOAD[kind] + 2;
    if *text.get(2 * size)? != b'\n' {
        return None;
    }
    let mut worst = 0;
    for (byte, pair) in bytes.iter_mut().zip(text[..2 * size].chunks_exact(2)) {
        let (high, low) = (value(pair[0]), value(pair[1]));
        worst |= high | low;
        *byte = high << 4 | low;
    }
    (worst < 16).then_some(size)
}

#[derive(Clone, Copy, PartialEq)]
enum Stage {
    Opening,
    Linking,
    Cutting,
    Closed,
}

/// How far a text has come after a frame of that kind, if it may stand there.
fn follow(stage: Stage, kind: u8) -> Option<Stage> {
    match (stage, kind) {
        (Stage::Opening, 1) => Some(Stage::Linking),
        (Stage::Linking, 2 | 5) => Some(Stage::Linking),
        (Stage::Linking, 3) | (Stage::Cutting, 3 | 5) => Some(Stage::Cutting),
        (Stage::Linking | Stage::Cutting, 6) => Some(Stage::Closed),
        _ => None,
    }
}

fn judge(text: &[u8], link_room: usize, record_room: usize) -> Result<Read, Refusal> {
    if text.len() > 65_536 {
        return Err((15, 0));
    }
    let mut read = Read { n: 0, k: 0, links: 0, cuts: 0 };
    let mut stage = Stage::Opening;
    let mut bytes = [0; 23];
    let (mut at, mut line) = (0, 0);
    while at < text.len() {
        let size = decode(&text[at..], &mut bytes).ok_or((16, line))?;
        if bytes[..size].iter().fold(0u8, |sum, byte| sum.wrapping_add(*byte)) != 0 {
            return Err((17, line));
        }
        stage = follow(stage, bytes[0]).ok_or((18, line))?;
        match bytes[0] {
            1 => (read.n, read.k) = (bytes[1], u16::from_be_bytes([bytes[2], bytes[3]])),
            2 => read.links += 1,
            3 => read.cuts += 1,
            6 if u16::from_be_bytes([bytes[1], bytes[2]]) as u32 != line => return Err((19, line)),
            _ => {}
        }
        at += 2 * size + 1;
        line += 1;
    }
    if stage != Stage::Closed {
        return Err((18, line));
    }
    let limits = [(4096, read.links, 3), (127, read.cuts, 9), (link_room, read.links, 14), (record_room, read.cuts * ENTRY, 8)];
    match limits.iter().find(|(most, count, _)| count > most) {
        Some((_, _, number)) => Err((*number, 0)),
        None => Ok(read),
    }
}

fn read(text: &[u8], links: &mut [Link], space: &mut [u8]) -> Result<Read, Refusal> {
    let read = judge(text, links.len(), space.len())?;
    let mut bytes = [0; 23];
    let (mut at, mut link, mut cut) = (0, 0, 0);
    while let Some(size) = decode(&text[at..], &mut bytes) {
        match bytes[0] {
            2 => {
                links[link] = Link { a: bytes[1], b: bytes[2], tally: u16::from_be_bytes([bytes[3], bytes[4]]) };
                link += 1;
            }
            3 => {
                space[cut..cut + ENTRY].copy_from_slice(&bytes[1..=ENTRY]);
                cut += ENTRY;
            }
            _ => {}
        }
        at += 2 * size + 1;
    }
    Ok(read)
}

/// Writes a frame at a place of a room; gives the place behind it.
#[inline(always)]
fn put(room: &mut [u8], at: usize, kind: u8, payload: &[u8]) -> usize {
    let end = at + 2 * payload.len() + 5;
    let line = &mut room[at..end];
    let mut sum = kind;
    put_byte(line, 0, kind);
    for (i, byte) in payload.iter().enumerate() {
        put_byte(line, 2 * i + 2, *byte);
        sum = sum.wrapping_add(*byte);
    }
    put_byte(line, 2 * payload.len() + 2, sum.wrapping_neg());
    line[2 * payload.len() + 4] = b'\n';
    end
}

fn put_byte(line: &mut [u8], at: usize, byte: u8) {
    line[at] = DIGITS[(byte >> 4) as usize];
    line[at + 1] = DIGITS[(byte & 15) as usize];
}

fn judge_list(n: u64, k: u64, links: &[Link]) -> Result<(), Refusal> {
    if n == 0 || n > 128 {
        return Err((1, 0));
    }
    if k == 0 || k > 65_535 {
        return Err((2, 0));
    }
    if links.len() > 4096 {
        return Err((3, 0));
    }
    for (place, link) in links.iter().enumerate() {
        if link.a as u64 >= n || link.b as u64 >= n {
            return Err((4, place as u32));
        }
        if link.a == link.b {
            return Err((5, place as u32));
        }
        if link.tally == 0 {
            return Err((6, place as u32));
        }
    }
    Ok(())
}

pub fn write(n: u64, k: u64, links: &[Link], entries: &[u8], out: &mut [u8]) -> Result<usize, Refusal> {
    judge_list(n, k, links)?;
    let cuts = entries.len() / ENTRY;
    if entries.len() % ENTRY != 0 || cuts as u64 > n - 1 {
        return Err((9, 0));
    }
    if out.len() < 20 + 13 * links.len() + 47 * cuts {
        return Err((20, 0));
    }
    let mut at = put(out, 0, 1, &[n as u8, (k >> 8) as u8, k as u8]);
    for link in links {
        let [high, low] = link.tally.to_be_bytes();
        at = put(out, at, 2, &[link.a, link.b, high, low]);
    }
    for entry in entries.chunks_exact(ENTRY) {
        at = put(out, at, 3, entry);
    }
    let frames = (1 + links.len() + cuts) as u16;
    Ok(put(out, at, 6, &frames.to_be_bytes()))
}
