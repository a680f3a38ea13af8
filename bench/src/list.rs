//! A list of links with its bone count and threshold, as bytes for the calls and as an input text for a reader.

#[derive(Clone)]
pub struct List {
    pub name: String,
    pub n: usize,
    pub k: usize,
    /// Four bytes a link: two bones, and the tally with its high byte first.
    pub links: Vec<u8>,
}

impl List {
    pub fn new(n: usize, k: usize) -> List {
        List { name: String::new(), n, k, links: Vec::new() }
    }

    pub fn link(&mut self, a: usize, b: usize, tally: usize) {
        self.links.extend([a as u8, b as u8, (tally >> 8) as u8, tally as u8]);
    }

    pub fn count(&self) -> usize {
        self.links.len() / 4
    }

    pub fn tallies(&self) -> usize {
        self.links.chunks(4).map(|l| (l[2] as usize) << 8 | l[3] as usize).sum()
    }

    /// Gives every bone another number; an order of links that follows the shape would flatter a scan.
    pub fn renumber(&mut self, new: &[usize]) {
        for link in self.links.chunks_mut(4) {
            link[0] = new[link[0] as usize] as u8;
            link[1] = new[link[1] as usize] as u8;
        }
    }

    /// The input text of this list: what the program `bones` reads.
    pub fn text(&self) -> String {
        let mut text = frame(1, &[self.n as u8, (self.k >> 8) as u8, self.k as u8]);
        for link in self.links.chunks(4) {
            text += &frame(2, link);
        }
        let frames = 1 + self.count();
        text + &frame(6, &[(frames >> 8) as u8, frames as u8])
    }

    /// Reads back what `text` wrote; notes and cuts are passed over, and nothing is judged.
    pub fn from_text(name: &str, text: &str) -> Option<List> {
        let mut list: Option<List> = None;
        for line in text.lines() {
            let bytes = unhex(line)?;
            match (bytes.first()?, &mut list) {
                (1, None) => list = Some(List::new(bytes[1] as usize, (bytes[2] as usize) << 8 | bytes[3] as usize)),
                (2, Some(list)) => list.links.extend(&bytes[1..5]),
                _ => {}
            }
        }
        list.map(|list| List { name: name.to_string(), ..list })
    }
}

fn frame(kind: u8, payload: &[u8]) -> String {
    let sum = payload.iter().fold(kind, |sum, byte| sum.wrapping_add(*byte));
    let hex: String = payload.iter().map(|byte| format!("{byte:02x}")).collect();
    format!("{kind:02x}{hex}{:02x}\n", sum.wrapping_neg())
}

fn unhex(line: &str) -> Option<Vec<u8>> {
    (0..line.len()).step_by(2).map(|i| u8::from_str_radix(line.get(i..i + 2)?, 16).ok()).collect()
}
