//! Lines of hexadecimal: the reader, the two writers, and what the programs are to print.

use super::calls::{judge_links, judge_record_length, Job};
use super::pit::Pit;
use super::record::{cuts_of, judge_run, Cut, Heap, ENTRY};
use super::{refuse_if, Refusal};

/// Bytes of a text, at most.
pub const MOST_BYTES: usize = 65_536;
const DIGITS: &[u8; 16] = b"0123456789abcdef";

/// Bytes between the kind and the sum; none for a byte that is no kind.
pub fn payload_length(kind: u8) -> Option<usize> {
    match kind {
        1 | 7 => Some(3),
        2 => Some(4),
        3 => Some(ENTRY),
        4 | 6 => Some(2),
        5 => Some(16),
        _ => None,
    }
}

/// The line of a frame, sum and line feed included.
pub fn line(kind: u8, payload: &[u8]) -> String {
    let sum: u32 = u32::from(kind) + payload.iter().map(|byte| u32::from(*byte)).sum::<u32>();
    let last = (256 - sum % 256) % 256;
    let mut line = String::new();
    for byte in [&[kind], payload, &[last as u8]].concat() {
        line.push(char::from(DIGITS[usize::from(byte / 16)]));
        line.push(char::from(DIGITS[usize::from(byte % 16)]));
    }
    line.push('\n');
    line
}

fn nibble(byte: u8) -> Option<u8> {
    DIGITS.iter().position(|digit| *digit == byte).map(|value| value as u8)
}

/// The bytes of a line that is well formed, its sum byte included.
fn well_formed(line: &[u8]) -> Option<Vec<u8>> {
    let digits = line.strip_suffix(b"\n")?;
    if digits.len() % 2 != 0 {
        return None;
    }
    let bytes: Option<Vec<u8>> = digits.chunks(2).map(|two| Some(nibble(two[0])? * 16 + nibble(two[1])?)).collect();
    let bytes = bytes?;
    let payload = payload_length(*bytes.first()?)?;
    (bytes.len() == payload + 2).then_some(bytes)
}

/// Where in an input text the reader stands.
#[derive(Clone, Copy, PartialEq)]
enum Part {
    Start,
    Links,
    Cuts,
    Closed,
}

/// The part after a frame of this kind, or none if the frame is out of its order.
fn next_part(part: Part, kind: u8) -> Option<Part> {
    match (part, kind) {
        (Part::Start, 1) => Some(Part::Links),
        (Part::Links, 2 | 5) => Some(Part::Links),
        (Part::Links | Part::Cuts, 3) => Some(Part::Cuts),
        (Part::Cuts, 5) => Some(Part::Cuts),
        (Part::Links | Part::Cuts, 6) => Some(Part::Closed),
        _ => None,
    }
}

/// What an input text says.
#[derive(Default)]
pub struct Input {
    pub n: u8,
    pub k: u16,
    pub links: Vec<u8>,
    pub record: Vec<u8>,
}

impl Input {
    fn take(&mut self, kind: u8, payload: &[u8]) {
        match kind {
            1 => (self.n, self.k) = (payload[0], u16::from_be_bytes([payload[1], payload[2]])),
            2 => self.links.extend(payload),
            3 => self.record.extend(payload),
            _ => {}
        }
    }
}

/// The reader: `link_room` counts links, `record_room` bytes.
pub fn read(text: &[u8], link_room: usize, record_room: usize) -> Result<Input, Refusal> {
    refuse_if(text.len() > MOST_BYTES, 15, 0)?;
    let mut input = Input::default();
    let mut part = Part::Start;
    let mut place = 0;
    for line in text.split_inclusive(|byte| *byte == b'\n') {
        part = read_line(line, place, part, &mut input)?;
        place += 1;
    }
    refuse_if(part != Part::Closed, 18, place)?;
    refuse_if(input.links.len() / 4 > 4096, 3, 0)?;
    refuse_if(input.record.len() / ENTRY > 127, 9, 0)?;
    refuse_if(link_room < input.links.len() / 4, 14, 0)?;
    refuse_if(record_room < input.record.len(), 8, 0)?;
    Ok(input)
}

/// The rows 16 to 19 on one line.
fn read_line(line: &[u8], place: usize, part: Part, input: &mut Input) -> Result<Part, Refusal> {
    let bytes = well_formed(line);
    refuse_if(bytes.is_none(), 16, place)?;
    let bytes = bytes.unwrap_or_default();
    let sum: usize = bytes.iter().map(|byte| usize::from(*byte)).sum();
    refuse_if(sum % 256 != 0, 17, place)?;
    let next = next_part(part, bytes[0]);
    refuse_if(next.is_none(), 18, place)?;
    let payload = &bytes[1..bytes.len() - 1];
    refuse_if(bytes[0] == 6 && usize::from(payload[0]) * 256 + usize::from(payload[1]) != place, 19, place)?;
    input.take(bytes[0], payload);
    Ok(next.unwrap_or(part))
}

fn head(n: u64, k: u64) -> String {
    line(1, &[n as u8, (k / 256) as u8, (k % 256) as u8])
}

fn close(text: &str) -> String {
    let frames = text.lines().count();
    line(6, &[(frames / 256) as u8, (frames % 256) as u8])
}

/// The text of numbers, links and cuts, judged by no one.
pub fn raw_input_text(n: u64, k: u64, links: &[u8], record: &[u8]) -> String {
    let mut text = head(n, k);
    for link in links.chunks(4) {
        text += &line(2, link);
    }
    for entry in record.chunks(ENTRY) {
        text += &line(3, entry);
    }
    let last = close(&text);
    text + &last
}

/// The input writer: rows 1 to 6, 9, 20.
pub fn write_input(n: u64, k: u64, links: &[u8], record: &[u8], room: usize) -> Result<String, Refusal> {
    let pit = judge_links(n, k, links)?;
    judge_record_length(pit.n, record)?;
    let text = raw_input_text(n, k, links, record);
    refuse_if(room < text.len(), 20, 0)?;
    Ok(text)
}

/// The result text of a run that leaves a heap.
pub fn result_text(pit: &Pit, cuts: &[Cut], heap: &Heap) -> String {
    let mut text = head(pit.n as u64, pit.k);
    for cut in cuts {
        text += &line(3, &cut.to_bytes());
    }
    for (bone, name) in heap.names(pit.n).into_iter().enumerate() {
        text += &line(4, &[bone as u8, name]);
    }
    let last = close(&text);
    text + &last
}

/// The result writer: rows 1 to 6, 9 to 13, 20.
pub fn write_result(n: u64, k: u64, links: &[u8], record: &[u8], room: usize) -> Result<String, Refusal> {
    let pit = judge_links(n, k, links)?;
    judge_record_length(pit.n, record)?;
    let cuts = cuts_of(record);
    let heap = judge_run(&pit, &cuts)?;
    let text = result_text(&pit, &cuts, &heap);
    refuse_if(room < text.len(), 20, 0)?;
    Ok(text)
}

/// The one line that a program prints when it refuses.
pub fn refusal_text(refusal: Refusal) -> String {
    line(7, &[refusal.number as u8, (refusal.place / 256) as u8, (refusal.place % 256) as u8])
}

/// What a program is asked for by a text, with all the room that it may want; or the reader's refusal.
pub fn asked(text: &[u8]) -> Result<Job, Refusal> {
    let input = read(text, 4096, ENTRY * 127)?;
    let (n, k) = (input.n.into(), input.k.into());
    Ok(Job { n, k, links: input.links, record: input.record, labels: 128, space: ENTRY * 127, ..Job::default() })
}

/// The cuts that a result text shows; none where it holds a line that is no frame.
pub fn cuts_shown(text: &[u8]) -> Option<Vec<Cut>> {
    let frames: Option<Vec<Vec<u8>>> = text.split_inclusive(|byte| *byte == b'\n').map(well_formed).collect();
    Some(frames?.iter().filter(|frame| frame[0] == 3).map(|frame| Cut::from_bytes(&frame[1..=ENTRY])).collect())
}
