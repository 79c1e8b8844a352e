//! The word: word to record and record to word.

use std::ops::RangeInclusive;
use std::sync::LazyLock;

/// Status codes of a record, in the order in which the document names them.
pub const FAILURE: u8 = 0;
pub const NODATA: u8 = 1;
pub const TEST: u8 = 2;
pub const READY: u8 = 3;

/// Label (octal) and the ranges of its zero bits: "The fifteen labels stand in one table with their zero bits".
pub const LABELS: [(u8, &[(u32, u32)]); 15] = [
    (0o222, &[(14, 16)]),
    (0o034, &[(11, 14)]),
    (0o173, &[(12, 16)]),
    (0o174, &[(12, 16)]),
    (0o033, &[(13, 14)]),
    (0o036, &[(11, 14)]),
    (0o151, &[(13, 13)]),
    (0o152, &[(13, 13)]),
    (0o153, &[(11, 18), (29, 29)]),
    (0o154, &[(11, 19), (29, 29)]),
    (0o155, &[(11, 18), (29, 29)]),
    (0o140, &[(11, 13)]),
    (0o141, &[(11, 13)]),
    (0o142, &[(11, 13)]),
    (0o143, &[(12, 13)]),
];

/// A record: "A record keeps its bits under every status." Codes and values are plain numbers, so that a record can also
/// hold what no word can: writing then refuses it.
#[derive(Clone, Copy, Debug, PartialEq, Eq)]
pub struct Record {
    pub source: u8,
    pub body: Body,
}

/// The fields of each label. `status`: 0 failure, 1 nodata, 2 test, 3 ready. `marker`: 0 none, 1 outer, 2 middle,
/// 3 inner. `category`: 0 not stated, 1 to 3. `frequency`: whole tens of kHz.
#[derive(Clone, Copy, Debug, PartialEq, Eq)]
pub enum Body {
    VorAzimuth { status: u8, marker: u8, count: i64 },
    VorFrequency { status: u8, frequency: i64 },
    IlsCourse { status: u8, inhibit: bool, count: i64 },
    IlsGlide { status: u8, inhibit: bool, count: i64 },
    IlsFrequency { status: u8, category: u8, frequency: i64 },
    MlsFrequency { status: u8, frequency: i64 },
    MlsAzimuth { status: u8, inhibit: bool, clearance: bool, count: i64 },
    MlsGlide { status: u8, inhibit: bool, clearance: bool, count: i64 },
    SelectedAzimuth { status: u8, manual: bool, degrees: i64 },
    GreatestGlide { status: u8, tenths: i64 },
    SelectedGlide { status: u8, manual: bool, tenths: i64 },
    Part1 { number: i64, content: i64 },
    Part2 { content: i64 },
    Part3 { content: i64 },
    Part4 { parity: bool, content: i64 },
}

/// Bits `first` to `last` as a number, the first lowest: "Bit k weighs 2^(k-1) in the 32-bit number."
pub fn bits(word: u32, first: u32, last: u32) -> i64 {
    (first..=last).map(|k| i64::from(word >> (k - 1) & 1) << (k - first)).sum()
}

/// One bit as a mark.
fn bit(word: u32, k: u32) -> bool {
    bits(word, k, k) == 1
}

/// "Bits 1 to 8 are the label, bit 1 its HIGHEST binary digit."
pub fn label_of(word: u32) -> u8 {
    (1..=8).map(|k| (word >> (k - 1) & 1) << (8 - k)).sum::<u32>() as u8
}

/// "Source number = bit 9 + 2 x bit 10."
pub fn source_of(word: u32) -> u8 {
    bits(word, 9, 10) as u8
}

/// "Counts are two's complement with bit 29 as sign."
fn signed(word: u32, first: u32) -> i64 {
    bits(word, first, 28) - (bits(word, 29, 29) << (29 - first))
}

/// The four digits, lowest first: "hundredths 15-18, tenths 19-22, units 23-26, tens 27-29".
fn digits(word: u32) -> [i64; 4] {
    [bits(word, 15, 18), bits(word, 19, 22), bits(word, 23, 26), bits(word, 27, 29)]
}

/// "VOR and ILS add 100 MHz", in tens of kHz.
fn vor_frequency(word: u32) -> i64 {
    let [hundredths, tenths, units, tens] = digits(word);
    10_000 + 1000 * tens + 100 * units + 10 * tenths + hundredths
}

/// "MLS tens 8 and 9 are sent as 0 and 1, 3 to 7 as themselves"; "MLS 5000 MHz".
fn mls_frequency(word: u32) -> i64 {
    let [hundredths, tenths, units, code] = digits(word);
    let tens = if code < 2 { code + 8 } else { code };
    500_000 + 1000 * tens + 100 * units + 10 * tenths + hundredths
}

/// The frequencies, in tens of kHz, that are printed with these whole MHz, these tenths and "hundredths 0 or 5".
fn printed_with(mhz: RangeInclusive<i64>, tenths: &[i64]) -> Vec<i64> {
    let mhz_and_tenths = mhz.flat_map(|mhz| tenths.iter().map(move |tenth| (mhz, tenth)));
    mhz_and_tenths.flat_map(|(mhz, tenth)| [0, 5].map(|hundredth| 100 * mhz + 10 * tenth + hundredth)).collect()
}

/// Request 5 of ILS: "one of the forty from 108.10 to 111.95 with odd tenths and hundredths 0 or 5 (ICAO Annex 10)".
pub static ILS_CHANNELS: LazyLock<Vec<i64>> = LazyLock::new(|| printed_with(108..=111, &[1, 3, 5, 7, 9]));

/// Request 5 of VOR: "from 108.00 to 117.95 with hundredths 0 or 5 and not one of those forty".
pub static VOR_CHANNELS: LazyLock<Vec<i64>> = LazyLock::new(|| {
    let mut channels = printed_with(108..=117, &[0, 1, 2, 3, 4, 5, 6, 7, 8, 9]);
    channels.retain(|frequency| !ILS_CHANNELS.contains(frequency));
    channels
});

/// Request 5 of VOR and ILS: a channel "Under ready or test"; "Under nodata any decimal digits stay legal for these two".
fn is_legal_frequency(channels: &[i64], status: u8, frequency: i64) -> bool {
    match status {
        READY | TEST => channels.contains(&frequency),
        _ => (10_000..=17_999).contains(&frequency),
    }
}

/// "A legal MLS frequency is 5031.0 + 0.3 k MHz, k from 0 to 199."
pub fn is_mls_frequency(frequency: i64) -> bool {
    (0..200).any(|k| frequency == 503_100 + 30 * k)
}

pub fn is_frequency(label: u8) -> bool {
    matches!(label, 0o034 | 0o033 | 0o036)
}

/// 1 to 4 for 140 to 143.
pub fn part_number(label: u8) -> Option<i64> {
    match label {
        0o140 => Some(1),
        0o141 => Some(2),
        0o142 => Some(3),
        0o143 => Some(4),
        _ => None,
    }
}

/// "1: the ones are even in number".
pub fn breaks_1(word: u32) -> bool {
    word.count_ones() % 2 == 0
}

/// "2: label not in the table".
pub fn breaks_2(word: u32) -> bool {
    let label = label_of(word);
    !LABELS.iter().any(|row| row.0 == label)
}

/// "3: a zero bit is one".
pub fn breaks_3(word: u32) -> bool {
    let label = label_of(word);
    LABELS.iter().any(|row| row.0 == label && row.1.iter().any(|&(first, last)| bits(word, first, last) != 0))
}

/// "5: a decimal digit above 9".
pub fn breaks_5(word: u32) -> bool {
    is_frequency(label_of(word)) && digits(word).iter().any(|&digit| digit > 9)
}

/// "4: a code not in its list": the status of decimal words ("11, ready with a minus, no frequency can have: 4"), the
/// markers ("nothing else"), the MLS tens ("2 is no code") and, in 140 to 143, bits 31 and 30 ("00, 01, 10, 11 for parts
/// 1 to 4").
pub fn breaks_4(word: u32) -> bool {
    let label = label_of(word);
    if let Some(part) = part_number(label) {
        return 2 * bits(word, 31, 31) + bits(word, 30, 30) != part - 1;
    }
    match label {
        0o034 | 0o033 => bit(word, 30) && bit(word, 31),
        0o036 => (bit(word, 30) && bit(word, 31)) || digits(word)[3] == 2,
        0o222 => (11..=13).filter(|&k| bit(word, k)).count() > 1,
        _ => false,
    }
}

/// "6: a value not legal": "Selected azimuth is 0 to 359", and the frequencies. "All tests here hold under every status", but
/// for request 5's of 034 and 033, which nodata is exempt from.
pub fn breaks_6(word: u32) -> bool {
    match label_of(word) {
        0o153 => bits(word, 20, 28) > 359,
        0o034 => !is_legal_frequency(&VOR_CHANNELS, decimal_status(word), vor_frequency(word)),
        0o033 => !is_legal_frequency(&ILS_CHANNELS, decimal_status(word), vor_frequency(word)),
        0o036 => !is_mls_frequency(mls_frequency(word)),
        _ => false,
    }
}

/// "7: bit 28 of 154 is wrong": "Bit 28 of 154 makes the ones in bits 20 to 28 odd."
pub fn breaks_7(word: u32) -> bool {
    label_of(word) == 0o154 && (20..=28).filter(|&k| bit(word, k)).count() % 2 == 0
}

/// "Words are checked in the order 1, 2, 3, 5, 4, 6, 7." The first rule that is broken, if any.
pub fn refusal(word: u32) -> Option<u8> {
    type Rule = (u8, fn(u32) -> bool);
    let rules: [Rule; 7] =
        [(1, breaks_1), (2, breaks_2), (3, breaks_3), (5, breaks_5), (4, breaks_4), (6, breaks_6), (7, breaks_7)];
    rules.iter().find(|rule| rule.1(word)).map(|rule| rule.0)
}

/// "Status of binary words (bits 30, 31): 00 failure, 10 nodata, 01 test, 11 ready."
fn binary_status(word: u32) -> u8 {
    match (bit(word, 30), bit(word, 31)) {
        (false, false) => FAILURE,
        (true, false) => NODATA,
        (false, true) => TEST,
        (true, true) => READY,
    }
}

/// "Status of decimal words: 00 ready, 10 nodata, 01 test".
fn decimal_status(word: u32) -> u8 {
    match (bit(word, 30), bit(word, 31)) {
        (false, false) => READY,
        (true, false) => NODATA,
        _ => TEST,
    }
}

/// "Markers (bits 11, 12, 13): 000 none, 100 outer, 010 middle, 001 inner".
fn marker(word: u32) -> u8 {
    match (bit(word, 11), bit(word, 12)) {
        (true, _) => 1,
        (_, true) => 2,
        _ => 3 * u8::from(bit(word, 13)),
    }
}

/// "Category (bits 11, 12): 10 I, 01 II, 11 III", 00 "as not stated".
fn category(word: u32) -> u8 {
    u8::from(bit(word, 11)) + 2 * u8::from(bit(word, 12))
}

/// Word to record: "Each accepted word has one record"; "A refusal carries its number and no record."
pub fn decode(word: u32) -> Result<Record, u8> {
    if let Some(number) = refusal(word) {
        return Err(number);
    }
    let binary = binary_status(word);
    let decimal = decimal_status(word);
    let body = match label_of(word) {
        0o222 => Body::VorAzimuth { status: binary, marker: marker(word), count: signed(word, 17) },
        0o034 => Body::VorFrequency { status: decimal, frequency: vor_frequency(word) },
        0o173 => Body::IlsCourse { status: binary, inhibit: bit(word, 11), count: signed(word, 17) },
        0o174 => Body::IlsGlide { status: binary, inhibit: bit(word, 11), count: signed(word, 17) },
        0o033 => Body::IlsFrequency { status: decimal, category: category(word), frequency: vor_frequency(word) },
        0o036 => Body::MlsFrequency { status: decimal, frequency: mls_frequency(word) },
        0o151 => Body::MlsAzimuth {
            status: binary,
            inhibit: bit(word, 11),
            clearance: bit(word, 12),
            count: signed(word, 14),
        },
        0o152 => {
            Body::MlsGlide { status: binary, inhibit: bit(word, 11), clearance: bit(word, 12), count: signed(word, 14) }
        }
        0o153 => Body::SelectedAzimuth { status: binary, manual: bit(word, 19), degrees: bits(word, 20, 28) },
        0o154 => Body::GreatestGlide { status: binary, tenths: bits(word, 20, 27) },
        0o155 => Body::SelectedGlide { status: binary, manual: bit(word, 19), tenths: bits(word, 20, 28) },
        0o140 => Body::Part1 { number: bits(word, 14, 21), content: bits(word, 22, 29) },
        0o141 => Body::Part2 { content: bits(word, 14, 29) },
        0o142 => Body::Part3 { content: bits(word, 14, 29) },
        0o143 => Body::Part4 { parity: bit(word, 11), content: bits(word, 14, 29) },
        _ => unreachable!("an accepted word has a label of the table"),
    };
    Ok(Record { source: source_of(word), body })
}

/// The label of a record.
pub fn label_of_record(record: &Record) -> u8 {
    match record.body {
        Body::VorAzimuth { .. } => 0o222,
        Body::VorFrequency { .. } => 0o034,
        Body::IlsCourse { .. } => 0o173,
        Body::IlsGlide { .. } => 0o174,
        Body::IlsFrequency { .. } => 0o033,
        Body::MlsFrequency { .. } => 0o036,
        Body::MlsAzimuth { .. } => 0o151,
        Body::MlsGlide { .. } => 0o152,
        Body::SelectedAzimuth { .. } => 0o153,
        Body::GreatestGlide { .. } => 0o154,
        Body::SelectedGlide { .. } => 0o155,
        Body::Part1 { .. } => 0o140,
        Body::Part2 { .. } => 0o141,
        Body::Part3 { .. } => 0o142,
        Body::Part4 { .. } => 0o143,
    }
}

/// The status of a record; parts have none ("In 140 to 143 bits 31, 30 are no status").
pub fn status_of(record: &Record) -> Option<u8> {
    match record.body {
        Body::VorAzimuth { status, .. }
        | Body::VorFrequency { status, .. }
        | Body::IlsCourse { status, .. }
        | Body::IlsGlide { status, .. }
        | Body::IlsFrequency { status, .. }
        | Body::MlsFrequency { status, .. }
        | Body::MlsAzimuth { status, .. }
        | Body::MlsGlide { status, .. }
        | Body::SelectedAzimuth { status, .. }
        | Body::GreatestGlide { status, .. }
        | Body::SelectedGlide { status, .. } => Some(status),
        Body::Part1 { .. } | Body::Part2 { .. } | Body::Part3 { .. } | Body::Part4 { .. } => None,
    }
}

/// The count of a record of the five measured quantities.
pub fn count_of(record: &Record) -> Option<i64> {
    match record.body {
        Body::VorAzimuth { count, .. }
        | Body::IlsCourse { count, .. }
        | Body::IlsGlide { count, .. }
        | Body::MlsAzimuth { count, .. }
        | Body::MlsGlide { count, .. } => Some(count),
        _ => None,
    }
}

/// Every code and the source is in its list.
fn codes_in_lists(record: &Record) -> bool {
    let status = match record.body {
        Body::VorFrequency { status, .. } | Body::IlsFrequency { status, .. } | Body::MlsFrequency { status, .. } => {
            [READY, NODATA, TEST].contains(&status)
        }
        _ => status_of(record).is_none_or(|status| status <= 3),
    };
    let other = match record.body {
        Body::VorAzimuth { marker, .. } => marker <= 3,
        Body::IlsFrequency { category, .. } => category <= 3,
        _ => true,
    };
    record.source <= 3 && status && other
}

/// Every other field is in its list: the counts that their bits hold, the frequencies, 0 to 359 degrees, and whole
/// numbers that their bits hold.
fn values_in_lists(record: &Record) -> bool {
    match record.body {
        Body::VorAzimuth { count, .. } | Body::IlsCourse { count, .. } | Body::IlsGlide { count, .. } => {
            (-4096..=4095).contains(&count)
        }
        Body::MlsAzimuth { count, .. } | Body::MlsGlide { count, .. } => (-32768..=32767).contains(&count),
        Body::VorFrequency { status, frequency } => is_legal_frequency(&VOR_CHANNELS, status, frequency),
        Body::IlsFrequency { status, frequency, .. } => is_legal_frequency(&ILS_CHANNELS, status, frequency),
        Body::MlsFrequency { frequency, .. } => is_mls_frequency(frequency),
        Body::SelectedAzimuth { degrees, .. } => (0..=359).contains(&degrees),
        Body::GreatestGlide { tenths, .. } => (0..=255).contains(&tenths),
        Body::SelectedGlide { tenths, .. } => (0..=511).contains(&tenths),
        Body::Part1 { number, content } => (0..=255).contains(&number) && (0..=255).contains(&content),
        Body::Part2 { content } | Body::Part3 { content } | Body::Part4 { content, .. } => {
            (0..=65535).contains(&content)
        }
    }
}

/// A number in bits `first` to `last`, two's complement when it is below zero.
fn placed(value: i64, first: u32, last: u32) -> u32 {
    (value.rem_euclid(1 << (last - first + 1)) as u32) << (first - 1)
}

/// Bits 30 and 31 of a binary word.
fn placed_binary_status(status: u8) -> u32 {
    match status {
        FAILURE => 0,
        NODATA => 1 << 29,
        TEST => 1 << 30,
        _ => 3 << 29,
    }
}

/// Bits 30 and 31 of a decimal word.
fn placed_decimal_status(status: u8) -> u32 {
    match status {
        READY => 0,
        NODATA => 1 << 29,
        _ => 1 << 30,
    }
}

/// Digits 15 to 29 of a frequency; for MLS the tens 8 and 9 as 0 and 1.
fn placed_frequency(frequency: i64) -> u32 {
    let tens = frequency / 1000 % 10;
    let code = if tens >= 8 { tens - 8 } else { tens };
    placed(frequency % 10, 15, 18)
        | placed(frequency / 10 % 10, 19, 22)
        | placed(frequency / 100 % 10, 23, 26)
        | placed(code, 27, 29)
}

/// Bits 9 to 31 of a legal record but the source.
fn placed_body(body: &Body) -> u32 {
    match *body {
        Body::VorAzimuth { status, marker, count } => {
            let mark = if marker == 0 { 0 } else { 1 << (10 + u32::from(marker) - 1) };
            placed_binary_status(status) | mark | placed(count, 17, 29)
        }
        Body::VorFrequency { status, frequency } | Body::MlsFrequency { status, frequency } => {
            placed_decimal_status(status) | placed_frequency(frequency)
        }
        Body::IlsCourse { status, inhibit, count } | Body::IlsGlide { status, inhibit, count } => {
            placed_binary_status(status) | placed(i64::from(inhibit), 11, 11) | placed(count, 17, 29)
        }
        Body::IlsFrequency { status, category, frequency } => {
            placed_decimal_status(status) | placed(i64::from(category), 11, 12) | placed_frequency(frequency)
        }
        Body::MlsAzimuth { status, inhibit, clearance, count }
        | Body::MlsGlide { status, inhibit, clearance, count } => {
            placed_binary_status(status)
                | placed(i64::from(inhibit), 11, 11)
                | placed(i64::from(clearance), 12, 12)
                | placed(count, 14, 29)
        }
        Body::SelectedAzimuth { status, manual, degrees: value }
        | Body::SelectedGlide { status, manual, tenths: value } => {
            placed_binary_status(status) | placed(i64::from(manual), 19, 19) | placed(value, 20, 28)
        }
        Body::GreatestGlide { status, tenths } => {
            let even = tenths.count_ones() % 2 == 0;
            placed_binary_status(status) | placed(tenths, 20, 27) | placed(i64::from(even), 28, 28)
        }
        Body::Part1 { number, content } => placed(number, 14, 21) | placed(content, 22, 29),
        Body::Part2 { content } => placed(content, 14, 29) | 1 << 29,
        Body::Part3 { content } => placed(content, 14, 29) | 1 << 30,
        Body::Part4 { parity, content } => placed(i64::from(parity), 11, 11) | placed(content, 14, 29) | 3 << 29,
    }
}

/// Record to word: "Writing a record refuses 4 if any code or source is outside its list, else 6 if any other field is;
/// never otherwise." "Bit 32 makes the count of ones odd."
pub fn encode(record: &Record) -> Result<u32, u8> {
    if !codes_in_lists(record) {
        return Err(4);
    }
    if !values_in_lists(record) {
        return Err(6);
    }
    let label = label_of_record(record).reverse_bits();
    let word = u32::from(label) | placed(i64::from(record.source), 9, 10) | placed_body(&record.body);
    Ok(if word.count_ones() % 2 == 0 { word | 1 << 31 } else { word })
}
