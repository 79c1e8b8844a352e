//! What is timed: words, figures, both side by side and sheets as the archive has them, the same in every run.

/// The splitmix64 generator.
pub struct Random(u64);

impl Random {
    pub fn new(seed: u64) -> Random {
        Random(seed)
    }

    pub fn draw(&mut self) -> u64 {
        self.0 = self.0.wrapping_add(0x9E37_79B9_7F4A_7C15);
        let mut z = self.0;
        z = (z ^ z >> 30).wrapping_mul(0xBF58_476D_1CE4_E5B9);
        z = (z ^ z >> 27).wrapping_mul(0x94D0_49BB_1331_11EB);
        z ^ z >> 31
    }

    fn below(&mut self, bound: u64) -> u64 {
        self.draw() % bound
    }
}

/// The low bytes of the fifteen labels in a word.
const LABELS: [u32; 15] = [0x49, 0x38, 0xDE, 0x3E, 0xD8, 0x78, 0x96, 0x56, 0xD6, 0x36, 0xB6, 0x06, 0x86, 0x46, 0xC6];

fn with_parity(word: u32) -> u32 {
    let rest = word & 0x7FFF_FFFF;
    rest | ((rest.count_ones() + 1) % 2) << 31
}

/// Words of all kinds of bits: nearly all are refused, half of them 1 and most others 2.
pub fn any_words(random: &mut Random, length: usize) -> Vec<u32> {
    (0..length).map(|_| random.draw() as u32).collect()
}

/// Bits 15 to 29, the digits of a frequency.
const DIGITS: u32 = 0x1FFF_C000;

/// The digits of every channel of a label: those that a ready word may have.
fn channel_digits(label: u32) -> Vec<u32> {
    let digits = (0..1 << 15).map(|number| number << 14);
    digits.filter(|digits| crate::rust::decode(with_parity(digits | label)).is_ok()).collect()
}

/// A VOR or ILS word off the raster with the digits of a channel instead, which the word itself chooses: nothing more is drawn.
fn tuned(word: u32, channels: &[u32]) -> u32 {
    let choice = (word.wrapping_mul(0x9E37_79B9) >> 16) as usize % channels.len();
    with_parity(word & !DIGITS | channels[choice])
}

/// Words that a receiver sends: of all fifteen labels, accepted but for one in fifty.
pub fn receiver_words(random: &mut Random, length: usize) -> Vec<u32> {
    let [vor, ils] = [0x38, 0xD8].map(channel_digits);
    let mut words = Vec::with_capacity(length);
    while words.len() < length {
        let label = LABELS[random.below(15) as usize];
        let word = random.draw() as u32 & !0xFF | label;
        // Clears the zero bits that most labels share, so that random data is often a legal word.
        let word = with_parity(if random.below(4) == 0 { word & 0xFFFF_03FF } else { word & 0x6FF8_03FF });
        let word = match (label, crate::rust::decode(word)) {
            (0x38, Err(6)) => tuned(word, &vor),
            (0xD8, Err(6)) => tuned(word, &ils),
            _ => word,
        };
        if crate::rust::decode(word).is_ok() {
            words.push(if random.below(50) == 0 { word ^ 1 << random.below(32) } else { word });
        }
    }
    words
}

/// Labels, sources and figures over the reach of each quantity.
pub fn figures(random: &mut Random, length: usize) -> Vec<(u8, u8, i64)> {
    let reaches =
        [(0o222, 360_000_000), (0o173, 400_000), (0o174, 800_000), (0o151, 2_400_000_000), (0o152, 2_400_000_000)];
    let mut figure = || {
        let (label, reach) = reaches[random.below(5) as usize];
        let size = random.below(reach) as i64;
        (label, random.below(4) as u8, if random.below(2) == 0 { size } else { -size })
    };
    (0..length).map(|_| figure()).collect()
}

/// The label of a measured word and its value in millionths, as an operator would note it.
fn noted(word: u32) -> Option<(u8, i64)> {
    let short = f64::from((word << 3) as i32 >> 19);
    let long = f64::from((word << 3) as i32 >> 16);
    let value = match word & 0xFF {
        0x49 => short * 45.0 / 1024.0,
        0xDE => short / 10240.0,
        0x3E => short / 5120.0,
        0x96 | 0x56 => long * 75.0 / 1024.0,
        _ => return None,
    };
    Some(((word as u8).reverse_bits(), (value * 1e6).round() as i64))
}

/// The low bytes of the five measured labels in a word.
const MEASURED: [u32; 5] = [0x49, 0xDE, 0x3E, 0x96, 0x56];

/// A ready word of a measured label, with any source and any count.
fn ready_word(random: &mut Random, label: u32) -> u32 {
    let source_and_count = if matches!(label, 0x96 | 0x56) { 0x1FFF_E300 } else { 0x1FFF_0300 };
    with_parity(3 << 29 | random.draw() as u32 & source_and_count | label)
}

/// Words of ILS course or glide, by the low byte of their label, and of a source, with any status and count.
pub fn deviation_words(random: &mut Random, low: u32, source: u32, length: usize) -> Vec<u32> {
    (0..length).map(|_| with_parity(random.draw() as u32 & 0x7FFF_0000 | source << 8 | low)).collect()
}

/// A word that is refused where a ready word stood: it with another bit, it without data, or a selected glide angle.
fn refused_word(random: &mut Random, word: u32) -> u32 {
    match random.below(3) {
        0 => word ^ 1 << random.below(32),
        1 => with_parity(word & !(1 << 30)),
        _ => with_parity(word & 0x6FF8_0300 | 0xB6),
    }
}

/// Measured words and what a transcriber typed beside them: the figure as it was noted, times or over 10, 100 or 1000, with the
/// other sign, or that of another word. The five labels and the nine reasons are equally frequent; one word in fifty is refused.
pub fn explanations(random: &mut Random, length: usize) -> Vec<(u32, i64)> {
    let mut explanations = Vec::with_capacity(length);
    while explanations.len() < length {
        let label = MEASURED[random.below(5) as usize];
        let reason = 1 + random.below(9) as u8;
        // An ILS deviation over 1000 has mostly lost its count, and 0 has only the first reason: then another word is drawn.
        let (word, millionths) = loop {
            let [word, other] = [(); 2].map(|()| ready_word(random, label));
            let [figure, another] = [word, other].map(|word| noted(word).map_or(0, |(_, millionths)| millionths));
            let typed = match reason {
                1 => figure,
                2 => figure * 10,
                3 => figure * 100,
                4 => figure * 1000,
                5 => figure / 10,
                6 => figure / 100,
                7 => figure / 1000,
                8 => -figure,
                _ => another,
            };
            if crate::rust::explain(word, typed) == Ok(reason) {
                break (word, typed);
            }
        };
        let word = if random.below(50) == 0 { refused_word(random, word) } else { word };
        explanations.push((word, millionths));
    }
    explanations
}

fn field(tag: u8, content: &[u8]) -> Vec<u8> {
    let [high, low] = (content.len() as u16).to_be_bytes();
    [&[tag, high, low], content].concat()
}

/// A sheet of exactly so many bytes, at least 3: an approach is a group of a short note and some words, each measured one
/// with the figure noted beside it, of which one in ten has lost its decimal point. A last note fills the sheet up.
pub fn sheet(random: &mut Random, words: &[u32], size: usize) -> Vec<u8> {
    let mut sheet = Vec::new();
    let first = random.below(words.len() as u64) as usize;
    let mut words = words.iter().cycle().skip(first);
    loop {
        let mut approach = field(0x12, b"approach");
        for word in words.by_ref().take(6 + random.below(12) as usize) {
            approach.extend(field(0x10, &word.to_be_bytes()));
            if let Some((label, millionths)) = noted(*word) {
                let noted = if random.below(10) == 0 { millionths * 10 } else { millionths };
                approach.extend(field(0x11, &[&[label][..], &noted.to_be_bytes()].concat()));
            }
        }
        let approach = field(0x20, &approach);
        if sheet.len() + approach.len() + 3 > size {
            break;
        }
        sheet.extend(approach);
    }
    sheet.extend(field(0x12, &vec![b' '; size - sheet.len() - 3]));
    sheet
}
