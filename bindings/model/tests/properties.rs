//! What must hold of the model itself: the three demands, tried on many inputs.

use model::compare::{self, Model, Subject};
use model::explain;
use model::figure::{measured_record, quantity_of, QUANTITIES};
use model::generate::{self, Random};
use model::labels;
use model::reading::{self, Reading, Value};
use model::sheet::{self, Content, Field, LIMIT};
use model::summary::{self, Summary};
use model::word::{self, Body, Record, FAILURE, NODATA, READY, TEST};
use model::{code, decode, decode_page, encode, explain_text, print_millionths};
use std::collections::{BTreeMap, BTreeSet};

#[test]
fn accepted_words_and_legal_records_give_each_other_back() {
    let mut random = Random::from_environment("words", 1);
    let mut accepted = 0;
    for _ in 0..400_000 {
        let word = generate::any_word(&mut random);
        if let Ok(record) = decode(word) {
            assert_eq!(encode(&record), Ok(word));
            accepted += 1;
        }
        let record = generate::any_record(&mut random);
        if let Ok(word) = encode(&record) {
            assert_eq!(decode(word), Ok(record));
        }
        let record = generate::legal_record(&mut random);
        assert_eq!(decode(encode(&record).unwrap()), Ok(record));
    }
    assert!(accepted > 100_000);
}

/// "Bit k weighing 2^(8-k)": of all 256 bytes the label is the byte turned, turned again it is the byte, and nothing above them counts.
#[test]
fn labels_are_bytes_turned() {
    for byte in 0..=u8::MAX {
        let label = word::label_of(u32::from(byte));
        assert_eq!(label, byte.reverse_bits());
        assert_eq!(word::label_of(u32::from(label)), byte);
        assert_eq!(word::label_of(0xFFFF_FF00 | u32::from(byte)), label);
    }
}

/// The lines of labels: the fifteen of document 01 in its order are among those of all bytes, which are in the bytes' order.
#[test]
fn label_lines() {
    let (table, all) = (labels::label_table(), labels::byte_table());
    assert_eq!(table.lines().next(), Some("222 10010010 49"));
    assert_eq!(
        table.lines().map(|line| u8::from_str_radix(&line[..3], 8).unwrap()).collect::<Vec<_>>(),
        word::LABELS.map(|row| row.0)
    );
    assert!(table.lines().all(|line| all.lines().any(|other| other == line)));
    assert!(all.lines().enumerate().all(|(byte, line)| line.ends_with(&format!(" {byte:02X}"))));
    assert_eq!((table.lines().count(), all.lines().count()), (15, 256));
}

/// Every answer from 1 to 7 is reached by the damaged words, so that comparisons see all of them.
#[test]
fn damaged_words_reach_every_refusal() {
    let mut random = Random::from_environment("damage", 2);
    let mut seen = [0; 8];
    for _ in 0..100_000 {
        seen[usize::from(decode(generate::any_word(&mut random)).err().unwrap_or(0))] += 1;
    }
    assert!(seen.iter().all(|&times| times > 50), "{seen:?}");
}

/// The pages made for comparisons reach every answer in the list, counts of every status and of both signs, and rooms too short, as
/// long as the words and longer, of each list by itself; pages of no word and of some hundreds.
#[test]
fn pages_reach_every_answer() {
    let mut random = Random::from_environment("pages", 15);
    let (mut answers, mut counted) = ([0; 8], [[0; 2]; 4]);
    let (mut rooms, mut empty, mut long) = ([[0; 3]; 3], 0, 0);
    for _ in 0..5000 {
        let (words, refusals, counts) = generate::any_page(&mut random);
        let page = decode_page(&words, &refusals, &counts);
        let [one, other] = [refusals.len(), counts.len()].map(|room| 1 + room.cmp(&words.len()) as i32);
        rooms[one as usize][other as usize] += 1;
        assert_eq!(page.answer, if one == 0 || other == 0 { Err(13) } else { Ok(()) });
        if page.answer.is_ok() {
            (empty, long) = (empty + u32::from(words.is_empty()), long + u32::from(words.len() > 400));
            for (index, &word) in words.iter().enumerate() {
                answers[usize::from(page.refusals[index])] += 1;
                if let Some(count) = decode(word).ok().and_then(|record| word::count_of(&record)) {
                    assert_eq!(i64::from(page.counts[index]), count);
                    counted[(word >> 29 & 3) as usize][usize::from(count < 0)] += 1;
                }
            }
        }
    }
    assert!(answers.iter().all(|&times| times > 50), "{answers:?}");
    assert!(counted.as_flattened().iter().all(|&times| times > 50), "{counted:?}");
    assert!(rooms.as_flattened().iter().all(|&times| times > 50), "{rooms:?}");
    assert!(empty > 50 && long > 50, "{empty} {long}");
}

/// Words and records of frequencies, made for comparisons, reach every answer that each label has under each status: 6 everywhere
/// but in VOR and ILS words without data, whose digits are all legal.
#[test]
fn frequencies_reach_every_answer() {
    let mut random = Random::from_environment("frequencies", 13);
    let (mut words, mut records) = (BTreeMap::new(), BTreeMap::new());
    for _ in 0..200_000 {
        let word = generate::any_word(&mut random);
        *words.entry((word::label_of(word), word >> 29 & 3, decode(word).err())).or_insert(0) += 1;
        let record = generate::any_record(&mut random);
        let key = (word::label_of_record(&record), word::status_of(&record), encode(&record).err());
        *records.entry(key).or_insert(0) += 1;
    }
    let often = |times: Option<&i32>| times.is_some_and(|&times| times > 30);
    for label in [0o034, 0o033, 0o036] {
        for (bits, always_legal) in [(0, false), (1, label != 0o036), (2, false)] {
            assert!(often(words.get(&(label, bits, None))), "{label:03o} {bits}");
            assert_eq!(often(words.get(&(label, bits, Some(6)))), !always_legal, "{label:03o} {bits}");
        }
        assert!(often(words.get(&(label, 3, Some(4)))), "{label:03o}");
        for status in [NODATA, TEST, READY] {
            for answer in [None, Some(6)] {
                assert!(often(records.get(&(label, Some(status), answer))), "{label:03o} {status} {answer:?}");
            }
        }
        assert!(often(records.get(&(label, Some(FAILURE), Some(4)))), "{label:03o}");
    }
}

/// Legal records meet every channel, and under nodata frequencies on both sides of each seam.
#[test]
fn legal_frequencies_meet_channels_and_seams() {
    let mut random = Random::from_environment("legal frequencies", 14);
    let mut met = BTreeSet::new();
    for label in [0o034, 0o033].into_iter().cycle().take(100_000) {
        match generate::legal_record_of(&mut random, label).body {
            Body::VorFrequency { status, frequency } | Body::IlsFrequency { status, frequency, .. } => {
                met.insert((label, status, frequency));
            }
            body => panic!("{body:?}"),
        }
    }
    for (label, channels) in [(0o034, &*word::VOR_CHANNELS), (0o033, &*word::ILS_CHANNELS)] {
        for status in [TEST, READY] {
            assert!(channels.iter().all(|&channel| met.contains(&(label, status, channel))), "{label:03o} {status}");
        }
        let beside = generate::SEAMS.iter().flat_map(|seam| seam - 1..=seam + 1);
        let mut digits = beside.filter(|frequency| (10_000..=17_999).contains(frequency));
        assert!(digits.all(|frequency| met.contains(&(label, NODATA, frequency))), "{label:03o}");
    }
}

/// The nearest of a few counts is the nearest of all: at every boundary of the 13-bit quantities near the ends, at random
/// boundaries elsewhere.
#[test]
fn nearest_is_that_of_the_scan() {
    let mut random = Random::from_environment("figures", 3);
    for quantity in QUANTITIES {
        let figures = generate::boundary_figures(&quantity);
        let ends = figures.iter().take(60).chain(figures.iter().rev().take(60)).copied();
        let middle: Vec<i64> = (0..600).map(|_| generate::any_millionths(&mut random, &quantity)).collect();
        for figure in ends.chain(middle) {
            let figure = i128::from(figure);
            assert_eq!(quantity.nearest(figure), quantity.nearest_by_scan(figure), "{quantity:?} {figure}");
        }
    }
}

/// "the value of every legal count, printed to six decimals, codes back to that count under every legal source."
#[test]
fn every_printed_count_codes_back() {
    for quantity in QUANTITIES {
        for count in quantity.least..=quantity.greatest {
            let printed = print_millionths(quantity.label, count as i64).unwrap();
            for source in 0..4 {
                let record = decode(code(quantity.label, source, printed).unwrap()).unwrap();
                assert_eq!(word::count_of(&record), Some(count as i64));
                assert_eq!(record.source, source);
            }
        }
    }
}

/// Coding never goes down as the figure goes up, between the ends of a line; each coded value is within half a step.
#[test]
fn coding_is_monotone_on_a_line() {
    for quantity in QUANTITIES.iter().filter(|quantity| !quantity.circle) {
        let mut last = quantity.least;
        for figure in generate::boundary_figures(quantity) {
            if let Some(count) = quantity.nearest(i128::from(figure)) {
                assert!(count >= last);
                assert!(2 * quantity.distance(count, i128::from(figure)) <= quantity.numerator);
                last = count;
            }
        }
        assert_eq!(last, quantity.greatest);
    }
}

/// "no MLS figure is then a tie": half-way between two counts, and half a step past the first and the last, lies no whole number of
/// millionths; the figures beside it have the counts on its two sides.
#[test]
fn no_mls_figure_is_a_tie() {
    for quantity in [0o151, 0o152].map(|label| quantity_of(label).unwrap()) {
        let legal = |count: i128| (quantity.least..=quantity.greatest).contains(&count).then_some(count);
        for count in quantity.least - 1..=quantity.greatest {
            let (half_way, whole) = ((2 * count + 1) * quantity.numerator, 2 * quantity.denominator);
            assert_ne!(half_way.rem_euclid(whole), 0, "{count}");
            let below = half_way.div_euclid(whole);
            assert_eq!(quantity.nearest(below), legal(count));
            assert_eq!(quantity.nearest(below + 1), legal(count + 1));
        }
    }
}

/// "a double, exactly count x 75 / 1024 mV", both multiplied by 1024: a double holds both products exactly.
#[test]
fn mls_readings_are_exact() {
    for label in [0o151, 0o152] {
        for count in -32_768..=32_767 {
            let reading = reading::reading(&measured_record(label, 0, count).unwrap());
            let Some(Reading { value: Value::Millivolts(value), test: false }) = reading else {
                panic!("{label:03o} {count}: {reading:?}");
            };
            assert_eq!((value * 1024.0).to_bits(), ((count * 75) as f64).to_bits(), "{label:03o} {count}");
        }
    }
}

/// All figures that agree with a word, found one by one around the value of its count, and a turn around it.
fn agreeing(word: u32) -> BTreeSet<i64> {
    let record = decode(word).unwrap();
    let quantity = quantity_of(word::label_of(word)).unwrap();
    let value = quantity.print(word::count_of(&record).unwrap().into()) as i64;
    let reach = (quantity.numerator / quantity.denominator) as i64;
    let turns: &[i64] = if quantity.circle { &[-1, 0, 1] } else { &[0] };
    let near = turns.iter().flat_map(|turn| (-reach..=reach).map(move |more| value + turn * 360_000_000 + more));
    near.filter(|&figure| model::agrees(word, figure)).collect()
}

/// The reason told is true by its sentence and no earlier one is: each sentence is read the other way round, from the figures that
/// agree to the one that was typed.
fn told_truly(word: u32, agreeing: &BTreeSet<i64>, millionths: i64) -> u8 {
    let typed = i128::from(millionths);
    let any = |is: &dyn Fn(i128) -> bool| agreeing.iter().any(|&figure| is(i128::from(figure)));
    let sentences = [
        any(&|figure| figure == typed),
        any(&|figure| figure * 10 == typed),
        any(&|figure| figure * 100 == typed),
        any(&|figure| figure * 1000 == typed),
        any(&|figure| figure == typed * 10),
        any(&|figure| figure == typed * 100),
        any(&|figure| figure == typed * 1000),
        any(&|figure| figure == -typed),
    ];
    let reason = model::explain(word, millionths).unwrap();
    let before = usize::from(reason) - 1;
    assert!(sentences[..before].iter().all(|holds| !holds), "{word:08X} {millionths}: {reason} {sentences:?}");
    assert!(before == 8 || sentences[before], "{word:08X} {millionths}: {reason} {sentences:?}");
    for (reason, holds) in (1..).zip(sentences) {
        assert_eq!(explain::holds(reason, word, millionths), holds, "{word:08X} {millionths}: {reason}");
    }
    reason
}

#[test]
fn the_first_true_reason_is_told() {
    let mut random = Random::from_environment("reasons", 7);
    let mut told = [0; 10];
    for quantity in QUANTITIES {
        let rounds = if quantity.numerator / quantity.denominator < 1000 { 200 } else { 3 };
        for _ in 0..rounds {
            let mut record = generate::legal_record_of(&mut random, quantity.label);
            while reading::reading(&record).is_none() {
                record = generate::legal_record_of(&mut random, quantity.label);
            }
            let (word, count) = (encode(&record).unwrap(), word::count_of(&record).unwrap());
            let agreeing = agreeing(word);
            let ends = [*agreeing.first().unwrap(), *agreeing.last().unwrap()];
            let slips = generate::slips_of_count(&quantity, count.into());
            let of_ends = ends.into_iter().flat_map(generate::slips);
            let anywhere: Vec<i64> = (0..8).map(|_| generate::any_millionths(&mut random, &quantity)).collect();
            for millionths in slips.chain(of_ends).chain(anywhere).chain(generate::ends_of_64_bits()) {
                told[usize::from(told_truly(word, &agreeing, millionths))] += 1;
            }
        }
    }
    assert!(told[1..].iter().all(|&times| times > 50), "{told:?}");
}

/// The words and figures made for comparisons reach every reason and every refusal.
#[test]
fn explanations_reach_every_answer() {
    let mut random = Random::from_environment("explanations", 8);
    let (mut told, mut refused) = ([0; 10], [0; 9]);
    for _ in 0..200_000 {
        let (word, millionths) = generate::any_explained(&mut random);
        match model::explain(word, millionths) {
            Ok(reason) => told[usize::from(reason)] += 1,
            Err(number) => refused[usize::from(number)] += 1,
        }
    }
    assert!(told[1..].iter().all(|&times| times > 1000), "{told:?}");
    assert!(refused[1..].iter().all(|&times| times > 10), "{refused:?}");
}

/// Which reasons hold together, the first of them told: the figures made for comparisons show the order of these. Two slips with one
/// sign lie apart by less than a turn, so no others are there but beside a zero, where the first agrees.
#[test]
fn several_reasons_may_hold() {
    let mut pairs = BTreeSet::new();
    for (word, figure) in generate::double_slips() {
        let told = model::explain(word, figure).unwrap();
        let later = (told + 1..=8).filter(|&later| explain::holds(later, word, figure));
        pairs.extend(later.filter(|_| told > 1).map(|later| (told, later)));
    }
    assert!(pairs.into_iter().eq([(2, 3), (2, 4), (2, 8), (3, 4), (3, 8), (4, 8), (5, 8), (6, 8), (7, 8)]));
}

/// The texts made for comparisons have answers of every sort; each answer's word and figure, typed again, has that answer.
#[test]
fn explained_texts() {
    let mut random = Random::from_environment("typed texts", 9);
    let mut sorts = [0; 4];
    for _ in 0..300 {
        let size = random.below(3000) as usize;
        let text = String::from_utf8(explain_text(&generate::typed_text(&mut random, size))).unwrap();
        let mut lines: Vec<&str> = text.lines().collect();
        let totals: Vec<&str> = lines.pop().unwrap().split(' ').collect();
        let unread = lines.iter().filter(|line| line.starts_with("line ")).count();
        let agree = lines.iter().filter(|line| line.ends_with(": agrees")).count();
        let refused = lines.iter().filter(|line| line.contains(": refused ")).count();
        let counts = [agree, lines.len() - agree - refused - unread, refused, unread];
        for (name, count) in [("lines", lines.len()), ("agree", counts[0]), ("disagree", counts[1])]
            .into_iter()
            .chain([("refused", refused), ("unread", unread)])
        {
            let place = totals.iter().position(|&word| word == name).unwrap();
            assert_eq!(totals[place + 1], count.to_string());
        }
        sorts.iter_mut().zip(counts).for_each(|(total, more)| *total += more);
        for line in lines.iter().filter(|line| !line.starts_with("line ")) {
            let typed = line.split(':').next().unwrap();
            let again = String::from_utf8(explain_text(typed.as_bytes())).unwrap();
            assert_eq!(again.lines().next(), Some(*line));
        }
    }
    assert!(sorts.iter().all(|&times| times > 100), "{sorts:?}");
}

/// "A field added at the end of a legal sheet leaves a legal sheet", with that sheet's fields and the new one.
#[test]
fn a_field_added_to_a_legal_sheet_leaves_it_legal() {
    let mut random = Random::from_environment("sheets", 4);
    for _ in 0..2000 {
        let size = random.below(400) as usize;
        let sheet = generate::legal_sheet(&mut random, size);
        let before = sheet::check(&sheet).unwrap();
        let inside = generate::nested_sheet(&mut random, 2);
        for content in [Content::Word(7), Content::Figure(0o173, -5), Content::Note(b"note"), Content::Group(&inside)] {
            let mut buffer = sheet.clone();
            buffer.resize(sheet.len() + 600, 0x55);
            let end = sheet::write(&mut buffer, sheet.len(), &content).unwrap();
            let after = sheet::check(&buffer[..end]).unwrap();
            assert_eq!(after[..before.len()], before[..]);
            assert_eq!((after[before.len()].place, after[before.len()].depth), (sheet.len(), 1));
            assert_eq!(after[before.len()].content.end, end);
            assert!(buffer[..sheet.len()] == sheet && buffer[end..].iter().all(|&byte| byte == 0x55));
        }
    }
}

/// The sheets made for comparisons reach every refusal, depth 4, and both sides of the limit.
#[test]
fn sheets_reach_every_refusal() {
    let mut random = Random::from_environment("damaged sheets", 5);
    let mut refusals = [0; 16];
    let (mut deepest, mut longest) = (0, 0);
    for _ in 0..20_000 {
        let bytes = generate::any_sheet(&mut random);
        match sheet::check(&bytes) {
            Ok(fields) => {
                refusals[0] += 1;
                longest = longest.max(bytes.len());
                deepest = fields.iter().map(|field| field.depth).fold(deepest, usize::max);
            }
            Err((number, offset)) => {
                refusals[usize::from(number)] += 1;
                assert!(offset < bytes.len());
            }
        }
    }
    assert_eq!((deepest, longest), (4, LIMIT));
    for number in [0, 9, 10, 11, 12, 15] {
        assert!(refusals[number] > 100, "{refusals:?}");
    }
}

/// "the four numbers, the refused words and the accepted words of other labels or sources must add up to all words"; the listing
/// has as many words, refused ones and ready ones of that label and source, and shows the least and the greatest figure.
#[test]
fn summaries_add_up() {
    let mut random = Random::from_environment("summaries", 10);
    let mut legal = 0;
    for _ in 0..4000 {
        let (bytes, label, source) = generate::any_summarized(&mut random);
        let Ok(s) = model::summarize(&bytes, label, source) else {
            continue;
        };
        legal += 1;
        let own = s.ready + s.test + s.nodata + s.failure;
        assert_eq!(own + s.refused + s.other, s.words);
        assert!(model::list(&bytes).ends_with(&format!("words {} refused {}\n", s.words, s.refused)));
        assert_eq!([s.least.is_some(), s.greatest.is_some(), s.mean.is_some()], [s.ready > 0; 3]);
        if let (Some(least), Some(greatest), Some((sum, number))) = (s.least, s.greatest, s.mean) {
            assert_eq!((sum, number), (s.sum, s.ready));
            assert!(least * number as i64 <= sum && sum <= greatest * number as i64);
        }
        assert!(s.ready > 0 || s.sum == 0);
        let lines = model::list(&bytes);
        let ready = lines.lines().filter(|line| line.starts_with(&format!("{label:03o} {source} ready ")));
        let figures: Vec<String> = ready.map(|line| line.rsplit(' ').next().unwrap().to_string()).collect();
        assert_eq!(figures.len(), s.ready);
        let shown =
            |count: Option<i64>| count.is_none_or(|count| figures.contains(&model::print_text(label, count).unwrap()));
        assert!(shown(s.least) && shown(s.greatest));
    }
    assert!(legal > 2000, "{legal} legal");
}

/// The sheets made for comparisons reach every refusal, every status with counts at both ends, and no ready word.
#[test]
fn summaries_reach_every_answer() {
    let mut random = Random::from_environment("summed up", 12);
    let mut refusals = [0; 16];
    let mut seen = [0; 10];
    for _ in 0..20_000 {
        let (bytes, label, source) = generate::any_summarized(&mut random);
        match model::summarize(&bytes, label, source) {
            Ok(s) => {
                let quantity = quantity_of(label).unwrap();
                let at = |count: Option<i64>, end: i128| count.is_some_and(|count| i128::from(count) == end);
                let sorts = [
                    s.ready > 1,
                    s.test > 0,
                    s.nodata > 0,
                    s.failure > 0,
                    s.refused > 0,
                    s.other > 0,
                    s.ready == 0 && s.words > 0,
                    at(s.least, quantity.least),
                    at(s.greatest, quantity.greatest),
                    s.ready > 300,
                ];
                sorts.iter().zip(&mut seen).for_each(|(holds, times)| *times += usize::from(*holds));
            }
            Err((number, offset)) => {
                refusals[usize::from(number)] += 1;
                assert_eq!(offset.is_some(), number > 8);
            }
        }
    }
    assert!([2, 4, 9, 10, 11, 12, 15].iter().all(|&number: &usize| refusals[number] > 5), "{refusals:?}");
    assert!(seen.iter().all(|&times| times > 20), "{seen:?}");
}

/// The comparison with other code: the model agrees with itself.
#[test]
fn the_model_agrees_with_itself() {
    let mut random = Random::from_environment("comparison", 6);
    compare::random(&Model, &mut random, 200).unwrap();
}

/// Each function has one small slip.
struct Wrong;

impl Subject for Wrong {
    /// The last ILS channel is taken as one of VOR.
    fn encode(&self, record: &Record) -> Result<u32, u8> {
        match record.body {
            Body::VorFrequency { status: READY, frequency: 11_195 } => Ok(0x0465_4038),
            _ => encode(record),
        }
    }
    /// A count of a word without data is left out, a list of no room is taken, and one element more than the words is written.
    fn decode_page(&self, words: &[u32], refusals: &mut [u8], counts: &mut [i16]) -> Result<(), u8> {
        if refusals.is_empty() || counts.is_empty() {
            return Ok(());
        }
        Model.decode_page(words, refusals, counts)?;
        for (&word, count) in words.iter().zip(&mut *counts) {
            *count *= i16::from(word >> 29 & 3 != 1);
        }
        if let Some(after) = counts.get_mut(words.len()) {
            *after = 0;
        }
        Ok(())
    }
    /// The last figure before a half step goes to the next count.
    fn code(&self, label: u8, source: u8, millionths: i64) -> Result<u32, u8> {
        match millionths {
            36_621 => model::code(label, source, 36_622),
            _ => model::code(label, source, millionths),
        }
    }
    /// The other sign is told before a thousand times.
    fn explain(&self, word: u32, millionths: i64) -> Result<u8, u8> {
        match model::explain(word, millionths) {
            Ok(7) if explain::holds(8, word, millionths) => Ok(8),
            answer => answer,
        }
    }
    /// Lines that pass have no place.
    fn explain_text(&self, input: &[u8]) -> Vec<u8> {
        let lines = input.split_inclusive(|&byte| byte == b'\n');
        explain_text(&lines.filter(|line| line[0] != b'#').collect::<Vec<_>>().concat())
    }
    /// A negative zero.
    fn chart_point(&self, course: u32, glide: u32) -> Result<(f64, f64), u8> {
        reading::chart_point(course, glide).map(|(x, y)| (x, -y))
    }
    /// Test is not marked.
    fn reading(&self, word: u32) -> Result<Option<Reading>, u8> {
        Ok(reading::reading(&decode(word)?).map(|reading| Reading { test: false, ..reading }))
    }
    /// The fields are those of a sheet whose groups may stand at depth 4.
    fn check(&self, sheet: &[u8]) -> Result<Vec<Field>, (u8, usize)> {
        sheet::check(sheet).or_else(|refusal| if refusal.0 == 12 { Ok(Vec::new()) } else { Err(refusal) })
    }
    /// The offset of a refused note is that of its content.
    fn note<'a>(&self, sheet: &'a [u8], place: usize) -> Result<&'a [u8], (u8, usize)> {
        sheet::note(sheet, place).map_err(|(number, offset)| (number, offset.wrapping_add(3)))
    }
    /// The tag is written before the room is looked at.
    fn write(&self, buffer: &mut [u8], place: usize, content: &Content) -> Result<usize, (u8, Option<usize>)> {
        if let Some(tag) = buffer.get_mut(place) {
            *tag = 0x10;
        }
        sheet::write(buffer, place, content)
    }
    /// One byte more than the text is written.
    fn list_into(&self, sheet: &[u8], buffer: &mut [u8]) -> Result<usize, u8> {
        let length = model::listing::list_into(sheet, buffer)?;
        if let Some(after) = buffer.get_mut(length) {
            *after = 0;
        }
        Ok(length)
    }
    /// The source is looked at before the label, and a test word has a mean.
    fn summarize(&self, sheet: &[u8], label: u8, source: u8) -> Result<Summary, summary::Refusal> {
        let s =
            model::summarize(sheet, label, source).map_err(|refusal| if source > 3 { (4, None) } else { refusal })?;
        Ok(Summary { mean: (s.ready + s.test > 0).then_some((s.sum, s.ready)), ..s })
    }
}

#[test]
fn comparison_of_frequencies() {
    let vor = |frequency| Record { source: 0, body: Body::VorFrequency { status: READY, frequency } };
    assert!(compare::record(&Wrong, &vor(11_190)).is_ok());
    assert!(compare::record(&Wrong, &vor(11_195)).is_err());
    assert!(compare::frequencies(&Wrong).is_err());
    assert!(compare::frequencies(&Model).is_ok());
}

#[test]
fn comparison_of_pages() {
    let word = |status| encode(&Record { source: 0, body: Body::IlsCourse { status, inhibit: false, count: 5 } });
    let [ready, nodata] = [READY, NODATA].map(|status| word(status).unwrap());
    assert!(compare::page(&Wrong, &[ready; 3], &[7; 4], &[7; 3]).is_ok());
    assert!(compare::page(&Wrong, &[ready; 3], &[7; 2], &[7; 4]).is_ok());
    assert!(compare::page(&Wrong, &[ready; 3], &[7; 3], &[7; 4]).unwrap_err().contains("element 3: got 0"));
    assert!(compare::page(&Wrong, &[ready; 3], &[7; 0], &[7; 3]).is_err());
    assert!(compare::page(&Wrong, &[ready; 3], &[7; 3], &[7; 0]).is_err());
    assert!(compare::page(&Wrong, &[ready, nodata], &[7; 2], &[7; 2]).unwrap_err().contains("element 1: got 0"));
    assert!((0..40).all(|length| compare::page_rooms(&Wrong, &mut Random::new(1), length).is_err()));
    assert!((0..40).all(|length| compare::page_rooms(&Model, &mut Random::new(1), length).is_ok()));
}

#[test]
fn comparison_finds_differences() {
    assert!(compare::figure(&Wrong, 0o151, 0, 36_621).is_err());
    assert!(compare::figure(&Wrong, 0o151, 0, 36_620).is_ok());
    let word = |body| encode(&Record { source: 0, body }).unwrap();
    let course = word(Body::IlsCourse { status: READY, inhibit: false, count: 1 });
    let glide = |count| word(Body::IlsGlide { status: READY, inhibit: false, count });
    assert!(compare::chart_point(&Wrong, course, glide(0)).is_err());
    assert!(compare::chart_point(&Wrong, glide(0), course).is_ok());
    assert!(compare::word(&Wrong, course).is_ok());
    assert!(compare::word(&Wrong, word(Body::IlsCourse { status: TEST, inhibit: false, count: 1 })).is_err());
    let mut groups = Vec::new();
    for depth in 0..5 {
        assert_eq!(compare::check(&Wrong, &groups).is_ok(), depth < 4);
        groups = sheet::field_bytes(&Content::Group(&groups));
    }
    assert!(compare::note(&Wrong, b"\x12\x00\x00", 0).is_ok());
    assert!(compare::note(&Wrong, b"\x12\x00\x00", 1).is_err());
    assert!(compare::write(&Wrong, &[0; 7], 0, &Content::Word(0)).is_ok());
    assert!(compare::write(&Wrong, &[0; 6], 0, &Content::Word(0)).is_err());
    assert!(compare::listing_room(&Wrong, &[], 5).is_err());
    assert!(compare::summary(&Wrong, &[], 0o222, 0).is_ok());
    assert!(compare::summary(&Wrong, &[], 0o222, 4).is_err());
    for (status, same) in [(READY, true), (TEST, false)] {
        let word = word(Body::IlsCourse { status, inhibit: false, count: 1 });
        let bytes = sheet::field_bytes(&Content::Word(word));
        assert_eq!(compare::summary(&Wrong, &bytes, 0o173, 0).is_ok(), same);
        assert!(compare::summaries(&Wrong, &bytes).is_err());
    }
    let west = code(0o222, 0, -351_562).unwrap();
    assert!(compare::explanation(&Wrong, west, -35_156_200).is_ok());
    assert!(compare::explanation(&Wrong, west, 359_640).is_err());
    assert!(compare::double_explanations(&Wrong).is_err());
    assert!(compare::explained_text(&Wrong, b"#\n640000DE 1\n").is_ok());
    assert!(compare::explained_text(&Wrong, b"#\n640000DE\n").is_err());
}
