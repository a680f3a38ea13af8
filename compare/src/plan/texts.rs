//! Texts for the program and the reader: those of lists, those damaged in every way, and those at the limits.

use super::{one_of, some_of, with_record};
use crate::made::rng::Rng;
use crate::made::{cutter, damage, lists};
use crate::second::calls::{judge_grouping, judge_links, Job};
use crate::second::record::{record_of, Cut, ENTRY};
use crate::second::text::{asked, cuts_shown, line, raw_input_text};

/// Bytes of a text that is damaged at every byte.
const MOST_DAMAGED: usize = 600;

/// The cuts that were printed for a text, put into it.
pub fn printed_again(text: &[u8], printed: &[u8]) -> Option<Vec<u8>> {
    let (Ok(job), Some(cuts)) = (asked(text), cuts_shown(printed)) else { return None };
    Some(raw_input_text(job.n, job.k, &job.links, &record_of(&cuts)).into_bytes())
}

/// A text of a list: from nothing, half done by another cutter, with a bad run, or spoilt.
pub fn of_list(job: &Job, rng: &mut Rng) -> Vec<u8> {
    let Ok(pit) = judge_links(job.n, job.k, &job.links) else { return Vec::new() };
    let cuts = cutter::run(&pit, rng);
    let job = match rng.below(4) {
        0 => job.clone(),
        1 if pit.n > 1 => {
            let place = rng.below(cuts.len() + 1).min(pit.n - 2);
            with_record(job, one_of(damage::bad_runs(&pit, &cuts, place, rng), rng))
        }
        2 => damage::bad_job(&with_record(job, some_of(&cuts, rng)), rng),
        _ => with_record(job, some_of(&cuts, rng)),
    };
    let text = raw_input_text(job.n, job.k, &job.links, &job.record).into_bytes();
    if rng.one_in(4) {
        with_notes(&text, rng)
    } else {
        text
    }
}

/// Notes put anywhere after the head, the close made to count them.
pub fn with_notes(text: &[u8], rng: &mut Rng) -> Vec<u8> {
    let mut lines: Vec<Vec<u8>> = text.split_inclusive(|byte| *byte == b'\n').map(<[u8]>::to_vec).collect();
    lines.pop();
    for _ in 0..rng.within(1, 4) {
        let note: Vec<u8> = (0..16).map(|_| rng.next() as u8).collect();
        lines.insert(rng.within(1, lines.len()), line(5, &note).into_bytes());
    }
    let frames = lines.len();
    lines.push(line(6, &[(frames >> 8) as u8, frames as u8]).into_bytes());
    lines.concat()
}

/// Small texts that are then damaged in every way; every other one is good.
pub fn small(count: usize, rng: &mut Rng) -> Vec<Vec<u8>> {
    let mut texts = vec![crate::self_test::LLAMAS.as_bytes().to_vec()];
    while texts.len() < count {
        let n = rng.within(1, 6);
        let mut job = lists::list(n, rng);
        job.links.truncate(4 * rng.within(1, 7));
        job.k = rng.within(1, 4) as u64;
        let text = of_list(&job, rng);
        let good = asked(&text).and_then(|job| judge_grouping(&job)).is_ok();
        if text.len() <= MOST_DAMAGED && (good || texts.len() % 2 == 0) {
            texts.push(text);
        }
    }
    texts
}

/// A text and all the damage that is done to it.
pub fn damaged(text: &[u8], rng: &mut Rng) -> Vec<Vec<u8>> {
    let mut texts = vec![text.to_vec()];
    texts.extend(damage::damaged_bytes(text, rng));
    texts.extend(damage::damaged_lines(text, rng));
    texts.extend(damage::damaged_frames(text, rng));
    texts
}

fn closed(mut lines: Vec<String>) -> Vec<u8> {
    let frames = lines.len();
    lines.push(line(6, &[(frames >> 8) as u8, frames as u8]));
    lines.concat().into_bytes()
}

/// Texts at the limits: empty, of the greatest length and one byte more, of 4,096 links and one more, of 127 cuts and one more,
/// of nothing but notes, and of lists that the calls refuse.
pub fn at_limits() -> Vec<Vec<u8>> {
    let head = |n: u8, k: u16| line(1, &[n, (k >> 8) as u8, k as u8]);
    let link = |i: usize| line(2, &[(i % 128) as u8, ((i + 1 + i / 128 % 100) % 128) as u8, 0xff, 0xff]);
    let cut = |i: usize| line(3, &single(i));
    let note = || line(5, &[0x61; 16]);
    let text = |n: u8, k: u16, links: usize, cuts: usize, notes: usize| {
        let mut lines = vec![head(n, k)];
        lines.extend((0..links).map(link));
        lines.extend((0..notes).map(|_| note()));
        lines.extend((0..cuts).map(cut));
        closed(lines)
    };
    let mut texts = vec![Vec::new(), b"\n".to_vec(), b"0000\n".to_vec(), b"00".to_vec(), vec![b'\n'; 65_536], vec![b'0'; 65_537]];
    for links in [4095, 4096, 4097] {
        texts.extend([text(128, 65_535, links, 0, 0), text(128, 1, links, 128, 0), text(0, 0, links, 0, 0)]);
    }
    for cuts in [126, 127, 128, 129] {
        texts.extend([text(128, 1, 0, cuts, 0), text(128, 1, 0, cuts, 3), text(0, 1, 0, cuts, 0), text(3, 1, 0, cuts, 0)]);
    }
    texts.extend([text(0, 1, 0, 0, 0), text(129, 1, 0, 0, 0), text(255, 0, 3, 0, 0), text(1, 0, 0, 0, 0), text(1, 65_535, 0, 0, 0)]);
    // 37 bytes a note: as many as fit, and one more; 65,536 bytes in whole frames, and 65,537.
    texts.extend((1765..1775).map(|notes| text(1, 1, 0, 0, notes)));
    texts.extend([text(128, 1, 2, 0, 1770), text(128, 1, 7, 1, 1767)]);
    for length in [65_535, 65_536, 65_537, 70_000, 200_000] {
        let mut long = text(1, 1, 0, 0, 1700);
        long.resize(length, b'0');
        texts.push(long);
    }
    texts
}

/// The cut, without links, of the greatest bone but i from pile 0.
fn single(i: usize) -> [u8; ENTRY] {
    Cut { pile: 0, weight: 0, side: 1 << (127 - i % 127) }.to_bytes()
}
