//! Deterministic inputs for tests: the same seed gives the same inputs on every machine.

use crate::explain::LINE_MOST;
use crate::figure::{self, Quantity, QUANTITIES};
use crate::sheet::{self, Content, LIMIT};
use crate::summary;
use crate::word::{self, Body, Record, ILS_CHANNELS, LABELS, NODATA, VOR_CHANNELS};
use std::collections::BTreeSet;

/// The splitmix64 generator.
#[derive(Clone, Debug)]
pub struct Random {
    state: u64,
}

impl Random {
    pub fn new(seed: u64) -> Random {
        Random { state: seed }
    }

    /// A generator seeded from the variable `SEED` (decimal) or else from the given number; the seed is printed.
    pub fn from_environment(purpose: &str, default: u64) -> Random {
        let seed = std::env::var("SEED").ok().and_then(|text| text.parse().ok()).unwrap_or(default);
        println!("{purpose}: SEED={seed}");
        Random::new(seed)
    }

    /// The next number.
    pub fn draw(&mut self) -> u64 {
        self.state = self.state.wrapping_add(0x9E37_79B9_7F4A_7C15);
        let mut z = self.state;
        z = (z ^ z >> 30).wrapping_mul(0xBF58_476D_1CE4_E5B9);
        z = (z ^ z >> 27).wrapping_mul(0x94D0_49BB_1331_11EB);
        z ^ z >> 31
    }

    /// A number below `bound`, which is not zero.
    pub fn below(&mut self, bound: u64) -> u64 {
        ((u128::from(self.draw()) * u128::from(bound)) >> 64) as u64
    }

    /// A number from `least` to `greatest`.
    pub fn within(&mut self, least: i64, greatest: i64) -> i64 {
        least + self.below((greatest - least + 1) as u64) as i64
    }

    pub fn flag(&mut self) -> bool {
        self.draw() & 1 == 1
    }

    /// True once in `times`.
    pub fn once_in(&mut self, times: u64) -> bool {
        self.below(times) == 0
    }

    pub fn pick<'a, T>(&mut self, items: &'a [T]) -> &'a T {
        &items[self.below(items.len() as u64) as usize]
    }

    pub fn bytes(&mut self, length: usize) -> Vec<u8> {
        (0..length).map(|_| self.draw() as u8).collect()
    }
}

// ---- words and records

/// Any word.
pub fn uniform_word(random: &mut Random) -> u32 {
    random.draw() as u32
}

/// The word with bit 32 set so that the ones are odd in number.
pub fn with_parity(word: u32) -> u32 {
    let rest = word & 0x7FFF_FFFF;
    rest | u32::from(rest.count_ones() % 2 == 0) << 31
}

/// Random bits with a label of the table; the parity is right three times in four, the zero bits are clear half the time.
pub fn labelled_word(random: &mut Random) -> u32 {
    let &(label, zeros) = random.pick(&LABELS);
    let mut word = (random.draw() as u32 & !0xFF) | u32::from(label.reverse_bits());
    if random.flag() {
        for &(first, last) in zeros {
            for k in first..=last {
                word &= !(1 << (k - 1));
            }
        }
    }
    if random.once_in(4) {
        word
    } else {
        with_parity(word)
    }
}

/// A legal word.
pub fn legal_word(random: &mut Random) -> u32 {
    word::encode(&legal_record(random)).expect("a legal record")
}

/// A legal word with one bit changed; half the time its parity is made right again, so that a later test sees the damage. A word
/// of a frequency has a digit changed half the time, as recognition gives it.
pub fn damaged_word(random: &mut Random) -> u32 {
    let legal = legal_word(random);
    if word::is_frequency(word::label_of(legal)) && random.flag() {
        return misread_word(random, legal);
    }
    let word = legal ^ 1 << random.below(32);
    if random.flag() {
        word
    } else {
        with_parity(word)
    }
}

/// A word of a frequency with one of its four digits drawn anew; the tens have three bits.
fn misread_word(random: &mut Random, word: u32) -> u32 {
    let &(shift, bits, greatest) = random.pick(&[(14, 15, 9), (18, 15, 9), (22, 15, 9), (26, 7, 7)]);
    let digit = random.below(greatest + 1) as u32;
    with_parity(word & !(bits << shift) | digit << shift)
}

/// A word of any of these sorts.
pub fn any_word(random: &mut Random) -> u32 {
    match random.below(8) {
        0 => uniform_word(random),
        1 | 2 => labelled_word(random),
        3 | 4 => damaged_word(random),
        _ => legal_word(random),
    }
}

/// A number from a range, its ends more often than chance.
fn edged(random: &mut Random, least: i64, greatest: i64) -> i64 {
    match random.below(8) {
        0 => least,
        1 => greatest,
        _ => random.within(least, greatest),
    }
}

/// Where the rules of VOR and ILS frequencies change: the ends of all digits and of the channels, the first and the last of ILS, the
/// first VOR channels beside it and above it; and the frequency that recognition gave.
pub const SEAMS: [i64; 11] = [10_000, 10_800, 10_805, 10_810, 10_820, 11_195, 11_200, 11_795, 11_800, 17_833, 17_999];

/// A legal frequency of VOR or ILS: a channel under ready and test, at a seam more often than chance; any digits under nodata, many
/// beside a seam.
fn legal_frequency(random: &mut Random, channels: &[i64], status: u8) -> i64 {
    let seam = *random.pick(&SEAMS);
    let at_seam = random.flag();
    match status {
        NODATA if at_seam => (seam + random.within(-1, 1)).clamp(10_000, 17_999),
        NODATA => edged(random, 10_000, 17_999),
        _ if at_seam && channels.contains(&seam) => seam,
        _ => *random.pick(channels),
    }
}

/// A frequency of VOR or ILS, legal or not: beside a seam, on the raster of 50 kHz about the channels, a channel, or stray.
pub fn any_frequency(random: &mut Random) -> i64 {
    match random.below(5) {
        0 | 1 => random.pick(&SEAMS) + random.within(-1, 1),
        2 => 5 * random.within(10_700 / 5, 11_900 / 5),
        3 if random.flag() => *random.pick(&ILS_CHANNELS),
        3 => *random.pick(&VOR_CHANNELS),
        _ => stray(random, 10_000, 17_999),
    }
}

/// A legal record of any of the fifteen labels.
pub fn legal_record(random: &mut Random) -> Record {
    let label = random.pick(&LABELS).0;
    legal_record_of(random, label)
}

/// A legal record of one label.
pub fn legal_record_of(random: &mut Random, label: u8) -> Record {
    let source = random.below(4) as u8;
    let status = random.below(4) as u8;
    let decimal = 1 + random.below(3) as u8;
    let (one, two) = (random.flag(), random.flag());
    let code = random.below(4) as u8;
    let count = edged(random, -4096, 4095);
    let long = edged(random, -32768, 32767);
    let channels = if label == 0o033 { &ILS_CHANNELS } else { &VOR_CHANNELS };
    let frequency = legal_frequency(random, channels, decimal);
    let byte = edged(random, 0, 255);
    let content = edged(random, 0, 65535);
    let body = match label {
        0o222 => Body::VorAzimuth { status, marker: code, count },
        0o034 => Body::VorFrequency { status: decimal, frequency },
        0o173 => Body::IlsCourse { status, inhibit: one, count },
        0o174 => Body::IlsGlide { status, inhibit: one, count },
        0o033 => Body::IlsFrequency { status: decimal, category: code, frequency },
        0o036 => Body::MlsFrequency { status: decimal, frequency: 503_100 + 30 * edged(random, 0, 199) },
        0o151 => Body::MlsAzimuth { status, inhibit: one, clearance: two, count: long },
        0o152 => Body::MlsGlide { status, inhibit: one, clearance: two, count: long },
        0o153 => Body::SelectedAzimuth { status, manual: one, degrees: edged(random, 0, 359) },
        0o154 => Body::GreatestGlide { status, tenths: byte },
        0o155 => Body::SelectedGlide { status, manual: one, tenths: edged(random, 0, 511) },
        0o140 => Body::Part1 { number: byte, content: content % 256 },
        0o141 => Body::Part2 { content },
        0o142 => Body::Part3 { content },
        0o143 => Body::Part4 { parity: one, content },
        _ => unreachable!("labels of the table only"),
    };
    Record { source, body }
}

/// A value a little or far outside a range, or anywhere in it.
fn stray(random: &mut Random, least: i64, greatest: i64) -> i64 {
    match random.below(6) {
        0 => least - 1,
        1 => greatest + 1,
        2 => random.within(-70_000, 700_000),
        _ => edged(random, least, greatest),
    }
}

/// A record, any of whose codes and values may be outside its list.
pub fn any_record(random: &mut Random) -> Record {
    let mut record = legal_record(random);
    if random.once_in(4) {
        record.source = random.draw() as u8;
    }
    let odd_code = random.once_in(4).then(|| random.below(8) as u8);
    match &mut record.body {
        Body::VorAzimuth { status, marker, count } => {
            *status = odd_code.unwrap_or(*status);
            *marker = if random.once_in(4) { random.below(8) as u8 } else { *marker };
            *count = stray(random, -4096, 4095);
        }
        Body::VorFrequency { status, frequency } => {
            *status = odd_code.unwrap_or(*status);
            *frequency = any_frequency(random);
        }
        Body::IlsCourse { status, count, .. } | Body::IlsGlide { status, count, .. } => {
            *status = odd_code.unwrap_or(*status);
            *count = stray(random, -4096, 4095);
        }
        Body::IlsFrequency { status, category, frequency } => {
            *status = odd_code.unwrap_or(*status);
            *category = if random.once_in(4) { random.below(8) as u8 } else { *category };
            *frequency = any_frequency(random);
        }
        Body::MlsFrequency { status, frequency } => {
            *status = odd_code.unwrap_or(*status);
            *frequency = match random.below(3) {
                0 => stray(random, 500_000, 509_999),
                1 => 503_100 + 30 * random.within(-1, 200),
                _ => *frequency,
            };
        }
        Body::MlsAzimuth { status, count, .. } | Body::MlsGlide { status, count, .. } => {
            *status = odd_code.unwrap_or(*status);
            *count = stray(random, -32768, 32767);
        }
        Body::SelectedAzimuth { status, degrees, .. } => {
            *status = odd_code.unwrap_or(*status);
            *degrees = stray(random, 0, 359);
        }
        Body::GreatestGlide { status, tenths } => {
            *status = odd_code.unwrap_or(*status);
            *tenths = stray(random, 0, 255);
        }
        Body::SelectedGlide { status, tenths, .. } => {
            *status = odd_code.unwrap_or(*status);
            *tenths = stray(random, 0, 511);
        }
        Body::Part1 { number, content } => {
            *number = stray(random, 0, 255);
            *content = stray(random, 0, 255);
        }
        Body::Part2 { content } | Body::Part3 { content } | Body::Part4 { content, .. } => {
            *content = stray(random, 0, 65535);
        }
    }
    record
}

/// Every frequency from 0 to 200 MHz, and every one from below 5000 to above 5100 MHz, as a record of each of the three kinds under each
/// of the four statuses.
pub fn every_frequency() -> impl Iterator<Item = Record> {
    (0..=20_000).chain(499_900..=510_100).flat_map(|frequency| {
        let (source, category) = ((frequency % 4) as u8, (frequency / 4 % 4) as u8);
        (0..4).flat_map(move |status| {
            let bodies = [
                Body::VorFrequency { status, frequency },
                Body::IlsFrequency { status, category, frequency },
                Body::MlsFrequency { status, frequency },
            ];
            bodies.map(|body| Record { source, body })
        })
    })
}

/// The words of a frequency's label with every four decimal digits, under each of the four codes of bits 30 and 31.
pub fn words_of_every_digit(label: u8) -> impl Iterator<Item = u32> {
    (0..8000u32).flat_map(move |number| {
        let digit = |weight: u32| number / weight % 10;
        let digits = digit(1) << 14 | digit(10) << 18 | digit(100) << 22 | digit(1000) << 26;
        (0..4).map(move |status| with_parity(u32::from(label.reverse_bits()) | digits | status << 29))
    })
}

/// A course word and a glide word for a chart point: of one source mostly; here and there exchanged, or any word.
pub fn chart_words(random: &mut Random) -> (u32, u32) {
    let source = random.below(4) as u8;
    let [course, glide] = [0o173, 0o174].map(|label| {
        let mut record = legal_record_of(random, label);
        record.source = if random.once_in(4) { record.source } else { source };
        if random.once_in(8) {
            any_word(random)
        } else {
            word::encode(&record).unwrap()
        }
    });
    if random.once_in(8) {
        (glide, course)
    } else {
        (course, glide)
    }
}

// ---- pages of words

/// Two lists as they may stand before a page is decoded into them: any numbers.
pub fn lent_lists(random: &mut Random, refusals_room: usize, counts_room: usize) -> (Vec<u8>, Vec<i16>) {
    let refusals = random.bytes(refusals_room);
    (refusals, (0..counts_room).map(|_| random.draw() as i16).collect())
}

/// The room of a list for so many words: theirs or a few more, here and there too little, by one more often than chance.
fn lent_room(random: &mut Random, length: usize) -> usize {
    match random.below(12) {
        0 => length.saturating_sub(1),
        1 => random.below(length as u64 + 1) as usize,
        2..=5 => length,
        _ => length + random.below(40) as usize,
    }
}

/// A page and the two lists that are lent to it: words of all sorts or of one, from none to some hundreds, a few mostly.
pub fn any_page(random: &mut Random) -> (Vec<u32>, Vec<u8>, Vec<i16>) {
    const SORTS: [fn(&mut Random) -> u32; 7] =
        [any_word, any_word, legal_word, measured_word, damaged_word, labelled_word, uniform_word];
    let word = random.pick(&SORTS);
    let most = if random.once_in(4) { 500 } else { 24 };
    let length = random.below(most) as usize;
    let words = (0..length).map(|_| word(random)).collect();
    let (refusals_room, counts_room) = (lent_room(random, length), lent_room(random, length));
    let (refusals, counts) = lent_lists(random, refusals_room, counts_room);
    (words, refusals, counts)
}

// ---- figures

/// The figures around a boundary given in units of 1/(2 x denominator) step: the millionths next to it on both sides.
fn around(quantity: &Quantity, half_steps: i128, figures: &mut Vec<i64>) {
    let middle = (half_steps * quantity.numerator).div_euclid(2 * quantity.denominator);
    figures.extend((middle - 1..=middle + 2).map(|figure| figure as i64));
}

/// Every boundary of a quantity: each count's value, each half-way point and the ends of its range, with the millionths next
/// to them; for the circle also those a turn higher; and the ends of 64 bits.
pub fn boundary_figures(quantity: &Quantity) -> Vec<i64> {
    let mut figures = vec![i64::MIN, i64::MIN + 1, i64::MAX - 1, i64::MAX, -1, 0, 1];
    let turns = if quantity.circle { quantity.greatest - quantity.least + 1 } else { 0 };
    for half_steps in 2 * quantity.least - 3..=2 * (quantity.greatest + turns) + 3 {
        around(quantity, half_steps, &mut figures);
    }
    if quantity.circle {
        figures.extend([-180_000_001, -180_000_000, -179_999_999, 359_999_999, 360_000_000, 360_000_001]);
    }
    figures.sort_unstable();
    figures.dedup();
    figures
}

/// Label, source and figure: measured labels mostly, legal sources mostly, figures at every scale.
pub fn any_figure(random: &mut Random) -> (u8, u8, i64) {
    let quantity = *random.pick(&QUANTITIES);
    let label = match random.below(16) {
        0 => random.draw() as u8,
        1 => random.pick(&LABELS).0,
        _ => quantity.label,
    };
    let source = if random.once_in(12) { random.draw() as u8 } else { random.below(4) as u8 };
    (label, source, any_millionths(random, &quantity))
}

/// A figure for a quantity: near its range, at a boundary, any 64-bit number of any size, or one at the ends of 64 bits.
pub fn any_millionths(random: &mut Random, quantity: &Quantity) -> i64 {
    let greatest = (quantity.greatest * quantity.numerator / quantity.denominator) as i64;
    match random.below(7) {
        0 => random.draw() as i64 >> random.below(64),
        1 => {
            let inward = (random.draw() >> (1 + random.below(63))) as i64;
            if random.flag() {
                i64::MAX - inward
            } else {
                i64::MIN + inward
            }
        }
        2 | 3 => {
            let reach = if quantity.circle { 2 * greatest } else { greatest };
            random.within(-greatest - greatest / 8, reach + reach / 8)
        }
        _ => {
            let turns = if quantity.circle { 8192 } else { 0 };
            let half_steps = random.within(2 * quantity.least as i64 - 3, 2 * (quantity.greatest as i64 + turns) + 3);
            let mut figures = Vec::new();
            around(quantity, i128::from(half_steps), &mut figures);
            *random.pick(&figures)
        }
    }
}

// ---- figures that are explained

/// The figures that a slip makes of one: itself, times and over 10, 100 and 1000, and with the other sign, where 64 bits hold it.
pub fn slips(figure: i64) -> impl Iterator<Item = i64> {
    let wide = i128::from(figure);
    let slips = [wide, wide * 10, wide * 100, wide * 1000, wide / 10, wide / 100, wide / 1000, -wide];
    slips.into_iter().filter_map(|slip| i64::try_from(slip).ok())
}

/// The slips of the figure that a count is printed as, and the millionths beside each.
pub fn slips_of_count(quantity: &Quantity, count: i128) -> impl Iterator<Item = i64> {
    slips(quantity.print(count) as i64).flat_map(|slip| slip - 1..=slip + 1)
}

/// Words beside figures for which several reasons may hold, so that the order alone decides what is told: azimuths where two slips
/// of the figure lie a whole turn apart, and zeros beside powers of ten.
pub fn double_slips() -> Vec<(u32, i64)> {
    const THOUSANDTHS: [i64; 8] = [1000, 100, 10, 1, 10_000, 100_000, 1_000_000, -1000];
    const TURN: i64 = 360_000_000;
    let pairs = THOUSANDTHS.iter().flat_map(|one| THOUSANDTHS.iter().map(move |other| one - other));
    let apart = pairs.filter(|&difference| difference != 0).map(|difference| TURN * 1000 / difference);
    let figures = apart.flat_map(|figure| [1, 10, 100, 1000].map(|whole| figure / whole * whole));
    let near = figures.flat_map(|figure| [-1000, -100, -10, -1, 0, 1, 10, 100, 1000].map(|more| figure + more));
    let azimuths =
        |figure| slips(figure).filter_map(|slip| figure::code(0o222, 0, slip).ok()).collect::<BTreeSet<u32>>();
    let turned = near.flat_map(|figure| azimuths(figure).into_iter().map(move |word| (word, figure)));
    let powers = (0..19).map(|power| 10i64.pow(power)).flat_map(|figure| [figure, -figure]);
    let zeros = QUANTITIES.map(|quantity| figure::code(quantity.label, 0, 0).unwrap());
    turned.chain(powers.flat_map(|figure| zeros.map(|word| (word, figure)))).collect()
}

/// The ends of 64 bits, and of the figures that can be multiplied by 10, 100 and 1000 there.
pub fn ends_of_64_bits() -> impl Iterator<Item = i64> {
    let ends = [i64::MIN, i64::MAX].into_iter().flat_map(|end| [1, 10, 100, 1000].map(|over| end / over));
    ends.flat_map(|end| (-2..=2).filter_map(move |more| end.checked_add(more)))
}

/// A legal word of a measured label.
pub fn measured_word(random: &mut Random) -> u32 {
    let label = random.pick(&QUANTITIES).label;
    word::encode(&legal_record_of(random, label)).unwrap()
}

/// A word and a figure to explain: a measured word mostly, and mostly a slip of a figure that agrees with it, at the ends of
/// those that agree more often than chance.
pub fn any_explained(random: &mut Random) -> (u32, i64) {
    let word = if random.once_in(6) { any_word(random) } else { measured_word(random) };
    let record = word::decode(word).ok();
    let count = record.and_then(|record| word::count_of(&record));
    let quantity = figure::quantity_of(word::label_of(word));
    let (Some(count), Some(quantity)) = (count, quantity) else {
        let quantity = *random.pick(&QUANTITIES);
        return (word, any_millionths(random, &quantity));
    };
    let mut figures = vec![quantity.print(i128::from(count)) as i64];
    let turns = if quantity.circle && random.flag() { quantity.greatest - quantity.least + 1 } else { 0 };
    let half_steps = 2 * (i128::from(count) + turns) + i128::from(random.within(-1, 1));
    around(&quantity, half_steps, &mut figures);
    let near = *random.pick(&figures);
    let slips: Vec<i64> = slips(near).collect();
    let millionths = match random.below(8) {
        0 => any_millionths(random, &quantity),
        1 => *random.pick(&ends_of_64_bits().collect::<Vec<i64>>()),
        2 => random.pick(&slips).saturating_add(random.within(-1000, 1000)),
        _ => *random.pick(&slips),
    };
    (word, millionths)
}

/// A figure as it may be typed: with a point or a comma, with fewer decimals where they are zeros, with more zeros before it,
/// with a plus sign.
fn typed_figure(random: &mut Random, millionths: i64) -> String {
    let mut text = figure::decimals_text(millionths);
    while text.ends_with('0') && random.once_in(2) {
        text.pop();
    }
    if text.ends_with('.') && random.flag() {
        text.pop();
    }
    let (sign, size) = match text.strip_prefix('-') {
        Some(size) => ("-", size),
        None => (*random.pick(&["", "", "+"]), text.as_str()),
    };
    let size = match size.strip_prefix("0.") {
        Some(decimals) if !decimals.is_empty() && random.once_in(4) => format!(".{decimals}"),
        _ => "0".repeat(if random.once_in(8) { random.below(30) as usize } else { 0 }) + size,
    };
    let size = if random.once_in(4) { size.replace('.', ",") } else { size };
    format!("{sign}{size}")
}

/// Blanks and tabs: some, or perhaps none.
fn blanks(random: &mut Random, least: u64) -> String {
    let number = if random.once_in(6) { least + random.below(5) } else { least };
    (0..number).map(|_| *random.pick(&[' ', ' ', '\t'])).collect()
}

/// A line with a word and a figure.
fn typed_line(random: &mut Random) -> Vec<u8> {
    let (word, millionths) = any_explained(random);
    let word = match random.below(3) {
        0 => format!("{word:08x}"),
        _ => format!("{word:08X}"),
    };
    let (before, between, after) = (blanks(random, 0), blanks(random, 1), blanks(random, 0));
    format!("{before}{word}{between}{}{after}", typed_figure(random, millionths)).into_bytes()
}

/// A change to a line: a byte changed, put in or left out, most often by one that means something; or the line cut or doubled.
fn damage_line(random: &mut Random, line: &mut Vec<u8>) {
    let byte = if random.flag() { *random.pick(b" \t\r#+-.,0aFgxE\0\x7F\xFF\n") } else { random.draw() as u8 };
    let place = random.below(line.len() as u64 + 1) as usize;
    match random.below(6) {
        0 => line.truncate(place),
        1 if place < line.len() => drop(line.remove(place)),
        2 if place < line.len() => line[place] = byte,
        3 => line.extend(line.clone()),
        _ => line.insert(place, byte),
    }
}

/// A line of a length near the longest that is read, or of any: with blanks or zeros put in, or with no meaning.
fn long_line(random: &mut Random) -> Vec<u8> {
    let most = LINE_MOST as i64;
    let length = match random.below(6) {
        0 => random.within(0, 3000),
        _ => random.within(most - 2, most + 2),
    } as usize;
    let mut line = typed_line(random);
    let more = length.saturating_sub(line.len());
    match random.below(6) {
        0 => line.splice(0..0, vec![b' '; more]).for_each(drop),
        1 => line.resize(line.len() + more, b'\t'),
        2 => line = vec![b'#'; length],
        3 => line = random.bytes(length),
        _ => {
            let after_word = line.iter().rposition(|byte| b" \t+-".contains(byte)).unwrap() + 1;
            line.splice(after_word..after_word, vec![b'0'; more]).for_each(drop);
        }
    }
    line
}

/// Lines as transcribers type them, and as they should not be: about `size` bytes.
pub fn typed_text(random: &mut Random, size: usize) -> Vec<u8> {
    let mut text = Vec::new();
    while text.len() < size {
        let mut line = match random.below(16) {
            0 => Vec::new(),
            1 => b"# as typed".to_vec(),
            2 => long_line(random),
            _ => typed_line(random),
        };
        if random.once_in(5) {
            damage_line(random, &mut line);
        }
        text.extend(line);
        let end = *random.pick(&["\n", "\n", "\n", "\n", "\n", "\r\n", "\r\n", "\r\r\n"]);
        text.extend(end.as_bytes());
    }
    if random.once_in(3) {
        let cut = text.len().saturating_sub(random.below(20) as usize);
        text.truncate(cut);
    }
    text
}

// ---- groups of parts

/// Words for the reassembly: runs of parts in sequence, broken here and there by another source, a part left out, a repeated
/// part, a damaged word or a word of another label.
pub fn part_words(random: &mut Random, length: usize) -> Vec<u32> {
    let mut words = Vec::new();
    let mut source = 0;
    let mut next = 0;
    while words.len() < length {
        if next == 0 {
            source = random.below(4) as u8;
        }
        let mut record = legal_record_of(random, [0o140, 0o141, 0o142, 0o143][next]);
        record.source = source;
        let word = word::encode(&record).unwrap();
        next = (next + 1) % 4;
        match random.below(24) {
            0 => next = random.below(4) as usize,
            1 => words.push(damaged_word(random)),
            2 => words.push(any_word(random)),
            3 => words.push(word ^ 1 << random.below(32)),
            4 => words.push(with_parity(word ^ 1 << (8 + random.below(2)))),
            5 => words.push(with_parity(word ^ 1 << (29 + random.below(2)))),
            6 => words.push(with_parity(word ^ 1 << (10 + random.below(3)))),
            7 => words.extend([word, word]),
            _ => words.push(word),
        }
    }
    words.truncate(length);
    words
}

// ---- sheets

/// The bytes of a field that is no group: words and figures that often belong together, and notes.
fn leaf(random: &mut Random, out: &mut Vec<u8>) {
    match random.below(8) {
        0 => {
            let length = random.below(12) as usize;
            let text = random.bytes(length);
            out.extend(sheet::field_bytes(&Content::Note(&text)));
        }
        1 | 2 => out.extend(sheet::field_bytes(&Content::Word(any_word(random)))),
        3 => {
            let (label, _, millionths) = any_figure(random);
            out.extend(sheet::field_bytes(&Content::Figure(label, millionths)));
        }
        _ => word_and_figure(random, out),
    }
}

/// A measured word and a figure after it: agreeing, near, ten times too large, a turn higher, or of another label.
fn word_and_figure(random: &mut Random, out: &mut Vec<u8>) {
    let quantity = *random.pick(&QUANTITIES);
    let record = legal_record_of(random, quantity.label);
    let count = word::count_of(&record).unwrap();
    let figure = quantity.print(i128::from(count)) as i64;
    let label = if random.once_in(8) { random.pick(&LABELS).0 } else { quantity.label };
    let figure = match random.below(6) {
        0 => figure * 10,
        1 => any_millionths(random, &quantity),
        2 => figure + random.within(-3, 3),
        3 if quantity.circle && figure < 0 => figure + 360_000_000 - random.within(0, 30_000),
        _ => figure,
    };
    out.extend(sheet::field_bytes(&Content::Word(word::encode(&record).unwrap())));
    out.extend(sheet::field_bytes(&Content::Figure(label, figure)));
}

/// A legal run of fields at a depth, of about `size` bytes, made of these leaves and of groups.
fn legal_run(random: &mut Random, size: usize, depth: usize, leaf: &dyn Fn(&mut Random, &mut Vec<u8>)) -> Vec<u8> {
    let mut run = Vec::new();
    while run.len() < size {
        if depth < 4 && random.once_in(4) {
            let room = size - run.len();
            let inside_size = random.below(room as u64 + 1) as usize;
            let inside = legal_run(random, inside_size, depth + 1, leaf);
            run.extend(sheet::field_bytes(&Content::Group(&inside)));
        } else {
            leaf(random, &mut run);
        }
    }
    run
}

/// A legal sheet of about `size` bytes, with groups to depth 3 and fields to depth 4.
pub fn legal_sheet(random: &mut Random, size: usize) -> Vec<u8> {
    let sheet = legal_run(random, size, 1, &leaf);
    debug_assert!(sheet.len() > LIMIT || sheet::check(&sheet).is_ok());
    sheet
}

/// A run of legal fields of exactly `size` bytes, at least 3: a legal sheet filled up by a note.
pub fn exact_sheet(random: &mut Random, size: usize) -> Vec<u8> {
    let share = random.below(size as u64) as usize;
    let mut sheet = legal_run(random, share.saturating_sub(64), 1, &leaf);
    if sheet.len() + 3 > size {
        sheet.clear();
    }
    let text = random.bytes(size - sheet.len() - 3);
    sheet.extend(sheet::field_bytes(&Content::Note(&text)));
    sheet
}

/// Groups inside one another to any depth: legal while the depth is at most 3.
pub fn nested_sheet(random: &mut Random, depth: usize) -> Vec<u8> {
    let mut inside = Vec::new();
    for _ in 0..depth {
        let mut run = Vec::new();
        for _ in 0..random.below(3) {
            leaf(random, &mut run);
        }
        run.extend(sheet::field_bytes(&Content::Group(&inside)));
        for _ in 0..random.below(3) {
            leaf(random, &mut run);
        }
        inside = run;
    }
    inside
}

/// One change to a sheet: a changed bit or byte, a cut, an insertion, a removed stretch, or a header's tag or length edited.
pub fn damage(random: &mut Random, sheet: &mut Vec<u8>) {
    let places = tag_places(sheet);
    if sheet.is_empty() {
        let length = 1 + random.below(4) as usize;
        *sheet = random.bytes(length);
        return;
    }
    let at = random.below(sheet.len() as u64) as usize;
    let tag_at = if places.is_empty() { at } else { *random.pick(&places) };
    match random.below(9) {
        0 => sheet[at] ^= 1 << random.below(8),
        1 => sheet[at] = random.draw() as u8,
        2 => sheet.truncate(at),
        3 => {
            let length = 1 + random.below(4) as usize;
            let bytes = random.bytes(length);
            sheet.splice(at..at, bytes);
        }
        4 => {
            let end = (at + 1 + random.below(4) as usize).min(sheet.len());
            sheet.drain(at..end);
        }
        5 => sheet[tag_at] = *random.pick(&[0x10, 0x11, 0x12, 0x20, 0x00, 0x01, 0x13, 0x21, 0xFF]),
        6 => edit_length(random, sheet, tag_at + 1, 255),
        7 => edit_length(random, sheet, tag_at + 2, 3),
        _ => {
            let bytes = [0x20, 0, 0];
            sheet.splice(tag_at..tag_at, bytes);
        }
    }
}

fn edit_length(random: &mut Random, sheet: &mut [u8], at: usize, by: u64) {
    if at < sheet.len() {
        sheet[at] = sheet[at].wrapping_add(1 + random.below(by) as u8).wrapping_sub(random.below(2) as u8 * 4);
    }
}

/// Where tags stand in a legal sheet; the first place alone otherwise.
fn tag_places(bytes: &[u8]) -> Vec<usize> {
    match sheet::check(bytes) {
        Ok(fields) => fields.iter().map(|field| field.place).collect(),
        Err((_, offset)) => vec![offset.min(bytes.len().saturating_sub(1))],
    }
}

/// A sheet of any sort: legal, damaged once or more, nested too deep, of any bytes, empty, at the limit or past it.
pub fn any_sheet(random: &mut Random) -> Vec<u8> {
    match random.below(128) {
        0 => Vec::new(),
        1 | 2 => {
            let length = random.below(40) as usize;
            random.bytes(length)
        }
        3 => exact_sheet(random, LIMIT),
        4 => exact_sheet(random, LIMIT + 1),
        5 => {
            let mut sheet = exact_sheet(random, LIMIT);
            damage(random, &mut sheet);
            sheet
        }
        6..=15 => {
            let depth = random.below(7) as usize;
            nested_sheet(random, depth)
        }
        16..=56 => {
            let size = random.below(300) as usize;
            legal_sheet(random, size)
        }
        _ => {
            let size = random.below(120) as usize;
            let mut sheet = legal_sheet(random, size);
            for _ in 0..=random.below(3) {
                damage(random, &mut sheet);
            }
            sheet
        }
    }
}

/// Every change at one place of a sheet: cut there, the byte left out, each bit turned, and the bytes that mean something.
pub fn damaged_everywhere(sheet: &[u8]) -> impl Iterator<Item = Vec<u8>> + '_ {
    (0..sheet.len()).flat_map(move |at| {
        let without = [&sheet[..at], &sheet[at + 1..]].concat();
        let bytes = (0..8).map(move |bit| sheet[at] ^ 1 << bit).chain([0x00, 0x04, 0x09, 0x10, 0x11, 0x12, 0x20, 0xFF]);
        let changed = bytes.map(move |byte| {
            let mut changed = sheet.to_vec();
            changed[at] = byte;
            changed
        });
        [sheet[..at].to_vec(), without].into_iter().chain(changed)
    })
}

/// Sheets of one field with every tag, lengths that fit and do not, and every short content, inside `depth` - 1 groups.
pub fn every_short_field(depth: usize) -> impl Iterator<Item = Vec<u8>> {
    const LENGTHS: [u16; 16] = [0, 1, 2, 3, 4, 5, 6, 7, 8, 9, 10, 12, 13, 255, 256, 65535];
    (0..=255u8).flat_map(move |tag| {
        LENGTHS.into_iter().flat_map(move |length| {
            (0..14usize).map(move |size| {
                let [high, low] = length.to_be_bytes();
                let mut field = vec![tag, high, low];
                field.extend((0..size).map(|k| [0x20, 0x00, 0x03, 0x12, 0x00][k % 5]));
                (1..depth).fold(field, |inside, _| sheet::field_bytes(&Content::Group(&inside)))
            })
        })
    })
}

// ---- sheets that are summed up

/// The label and source of a summary: mostly those that one can have.
fn any_choice(random: &mut Random) -> (u8, u8) {
    let label = match random.below(24) {
        0 => random.draw() as u8,
        1 => random.pick(&LABELS).0,
        _ => *random.pick(&summary::LABELS),
    };
    let source = match random.below(24) {
        0 => random.draw() as u8,
        1 => 4,
        _ => random.below(4) as u8,
    };
    (label, source)
}

/// A word for the summary of a label and a source: mostly one of theirs, under any status, its count at an end more often than
/// chance; here and there of another source or label, damaged, or any word.
fn summarized_word(random: &mut Random, label: u8, source: u8) -> u32 {
    let own = if summary::LABELS.contains(&label) { label } else { *random.pick(&summary::LABELS) };
    let sort = random.below(12);
    let mut record = match sort {
        0 => legal_record(random),
        1 => {
            let other = *random.pick(&summary::LABELS);
            legal_record_of(random, other)
        }
        _ => legal_record_of(random, own),
    };
    if sort != 2 {
        record.source = source % 4;
    }
    let word = word::encode(&record).unwrap();
    match sort {
        3 => word ^ 1 << random.below(32),
        4 => with_parity(word ^ 1 << random.below(31)),
        5 => any_word(random),
        _ => word,
    }
}

/// A sheet with the label and source of a summary of it: words that are mostly theirs, at every depth, among other fields; of a
/// few bytes mostly, up to the limit now and then; damaged, or of any sort, here and there.
pub fn any_summarized(random: &mut Random) -> (Vec<u8>, u8, u8) {
    let (label, source) = any_choice(random);
    if random.once_in(12) {
        return (any_sheet(random), label, source);
    }
    let size = match random.below(100) {
        0 => random.below(LIMIT as u64 + 100),
        _ => random.below(250),
    } as usize;
    let mut sheet = legal_run(random, size, 1, &|random, out| match random.below(6) {
        0 => leaf(random, out),
        _ => out.extend(sheet::field_bytes(&Content::Word(summarized_word(random, label, source)))),
    });
    if random.once_in(5) {
        damage(random, &mut sheet);
    }
    (sheet, label, source)
}

/// A full sheet of ready words of one label and source, all with the least count or all with the greatest.
pub fn fullest_sheet(label: u8, source: u8, least: bool) -> Vec<u8> {
    let quantity = figure::quantity_of(label).unwrap();
    let count = if least { quantity.least } else { quantity.greatest };
    let record = figure::measured_record(label, source, count as i64).unwrap();
    sheet::field_bytes(&Content::Word(word::encode(&record).unwrap())).repeat(LIMIT / 7)
}

// ---- writing

/// The length of a buffer and a place in it for a field: mostly with the field's end beside the buffer's or the limit.
pub fn room_and_place(random: &mut Random, content: &Content) -> (usize, usize) {
    let length = sheet::field_length(content);
    let room = match random.below(8) {
        0 => LIMIT + random.below(16) as usize - 8,
        1 => length + random.below(5) as usize,
        _ => random.below(60) as usize,
    };
    let beside = |random: &mut Random, end: usize| (end + random.below(5) as usize).saturating_sub(length + 2);
    let place = match random.below(16) {
        0 => usize::MAX - random.below(16) as usize,
        1 => random.draw() as usize,
        2 | 3 => beside(random, LIMIT),
        4..=7 => beside(random, room),
        _ => random.below(room as u64 + 4) as usize,
    };
    (room, place)
}
