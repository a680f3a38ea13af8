//! The longest input text, read and written again: the library beside the plain loop.

use crate::library::{again, NO_LINK};
use crate::measure::{best, Care};
use crate::plain_texts::{self, Link};
use crate::rng::Rng;
use std::hint::black_box;
use std::time::Duration;

/// One head, 4,096 links, 127 cuts and a close.
const LONGEST: usize = 20 + 13 * 4096 + 47 * 127;

type Call = fn(&[u8], &mut [u8]) -> usize;

fn library(text: &[u8], out: &mut [u8]) -> usize {
    again(text, &mut [NO_LINK; 4096], &mut [0; 127 * 21], out)
}

fn plain(text: &[u8], out: &mut [u8]) -> usize {
    plain_texts::again(text, out).unwrap_or(0)
}

/// Random links between different bones and random entries, which neither the reader nor the input writer judges.
fn longest(rng: &mut Rng) -> Vec<u8> {
    let link = |rng: &mut Rng| {
        let a = rng.below(128);
        Link { a: a as u8, b: ((a + rng.within(1, 127)) % 128) as u8, tally: rng.within(1, 65_535) as u16 }
    };
    let links: Vec<Link> = (0..4096).map(|_| link(rng)).collect();
    let entries: Vec<u8> = (0..127 * 21).map(|_| rng.next() as u8).collect();
    let mut text = vec![0; LONGEST];
    assert_eq!(plain_texts::write(128, 3, &links, &entries, &mut text), Ok(LONGEST));
    text
}

/// The quickest of a batch of calls.
fn batch(call: Call, text: &[u8], out: &mut [u8]) -> f64 {
    let care = Care { batch: Duration::from_millis(5), batches: 1 };
    best(care, || {
        black_box(call(black_box(text), out));
    })
}

/// Both give the text back; then batches of the two take turns.
pub fn print(seed: u64) -> Result<(), String> {
    let text = longest(&mut Rng::new(seed));
    let mut out = vec![0; LONGEST];
    for (name, call) in [("library", library as Call), ("plain", plain)] {
        out.fill(0);
        if call(&text, &mut out) != LONGEST || out != text {
            return Err(format!("the longest text, read and written again by the {name}, is not the same"));
        }
    }
    let (mut of_library, mut of_plain) = (f64::INFINITY, f64::INFINITY);
    for _ in 0..30 {
        of_library = of_library.min(batch(library, &text, &mut out));
        of_plain = of_plain.min(batch(plain, &text, &mut out));
    }
    println!(
        "\nthe longest text ({LONGEST} bytes), read and written again: plain {of_plain:.0} ns, library {of_library:.0} ns, ratio {:.2}",
        of_library / of_plain
    );
    Ok(())
}
