//! Readings: valid, damaged and cut records, random bytes, every place.

use crate::common::{seeded, ToWrite};
use crate::postings::{fields, kinds, nonzero, number_of, posting_of, record_of, Entry, BOOKS};
use twin::random::Random;
use twin::records::{Book, Posting, Read};
use twin::written::{Refusal, Written};
use twin::{proved, records};

const RANDOM_CASES: usize = 1_000_000;

/// What the paper wants of a reading, refusal after refusal.
fn expected_read(book: Book, bytes: &[u8], place: usize) -> Read {
    let refused = |number| Read::Refused { number, place };
    let rest = &bytes[place.min(bytes.len())..];
    if rest.len() < 2 {
        return refused(1);
    }
    let (kind, bit_map) = (rest[0], u32::from(rest[1]));
    let Some(fields) = fields(book, kind) else {
        return refused(2);
    };
    let stands = |bit: usize| bit_map / 2_u32.pow(bit as u32) % 2 == 1;
    if (fields.len()..8).any(stands) {
        return refused(3);
    }
    let standing: Vec<usize> = (0..fields.len()).filter(|&bit| stands(bit)).collect();
    let length = 2 + 8 * standing.len();
    if rest.len() < length {
        return refused(4);
    }
    let mut numbers = [0; 3];
    for (index, &bit) in standing.iter().enumerate() {
        numbers[bit] = number_of(&rest[2 + 8 * index..10 + 8 * index]);
    }
    if standing.iter().any(|&bit| numbers[bit] == 0) {
        return refused(5);
    }
    let posting = Posting { kind, numbers };
    Read::Found {
        posting,
        next: place + length,
    }
}

/// Readings on both sides, and how often each answer was met: 0 is "found".
struct Readings {
    met: [[usize; 6]; 2],
    origin: String,
}

impl Readings {
    fn new(origin: String) -> Self {
        Self {
            met: [[0; 6]; 2],
            origin,
        }
    }

    /// Both sides, which must agree, be as expected, and write back the record that they find.
    fn read(&mut self, book: Book, bytes: &[u8], place: usize) -> Read {
        let origin = &self.origin;
        let proved = proved::read_record(book, bytes, place);
        let twin = records::read_record(book, bytes, place);
        assert_eq!(
            proved, twin,
            "proved and twin {book:?} at {place} of {bytes:02x?}, {origin}"
        );
        let expected = expected_read(book, bytes, place);
        assert_eq!(
            twin, expected,
            "{book:?} at {place} of {bytes:02x?} and expected, {origin}"
        );
        let number = match twin {
            Read::Found { posting, next } => {
                write_back(Entry { book, posting }, &bytes[place..next], origin);
                0
            }
            Read::Refused { number, .. } => number,
        };
        self.met[book as usize][number] += 1;
        twin
    }

    /// As above, with an answer known from how the bytes were made.
    fn expect(&mut self, expected: Read, book: Book, bytes: &[u8], place: usize) {
        let met = self.read(book, bytes, place);
        let origin = &self.origin;
        assert_eq!(
            met, expected,
            "{book:?} at {place} of {bytes:02x?} and known, {origin}"
        );
    }

    /// Holds each of the answers to have been met at least so often for either book.
    fn met_at_least(&self, least: usize, answers: &[usize]) {
        for (book, met) in BOOKS.iter().zip(&self.met) {
            for &answer in answers {
                let count = met[answer];
                assert!(
                    count >= least,
                    "answer {answer} of {book:?} met {count} times"
                );
            }
        }
    }
}

/// Both sides write the record again.
fn write_back(entry: Entry, record: &[u8], origin: &str) {
    let (mut proved_buffer, mut twin_buffer) = ([0; 26], [0; 26]);
    let proved = entry.write_proved(&mut proved_buffer);
    let twin = entry.write_twin(&mut twin_buffer);
    let right = Written::Length(record.len());
    assert_eq!(
        (proved, twin),
        (right, right),
        "{entry:?} written back, {origin}"
    );
    for buffer in [proved_buffer, twin_buffer] {
        assert_eq!(
            &buffer[..record.len()],
            record,
            "{entry:?} written back, {origin}"
        );
    }
}

fn random_bytes(random: &mut Random, most: usize) -> Vec<u8> {
    let mut bytes = vec![0; random.below(most + 1)];
    random.fill(&mut bytes);
    bytes
}

#[test]
fn records_of_the_paper_are_read() {
    let mut readings = Readings::new("the paper's journal".to_string());
    let journal = [
        0x00, 0x01, 0x01, 0, 0, 0, 0, 0, 0x1e, 0x84, 0x80, 0x03, 0x02, 0, 0, 0, 0, 0, 0, 0x03,
        0xe8, 0x04, 0x03, 0, 0, 0, 0, 0, 0, 0, 0x01, 0, 0, 0, 0, 0, 0, 0, 0x01,
    ];
    let postings = [(1, [2_000_000, 0, 0]), (3, [0, 1_000, 0]), (4, [1, 1, 0])];
    let mut place = 1;
    for ((kind, numbers), next) in postings.into_iter().zip([11, 21, 39]) {
        let posting = Posting { kind, numbers };
        let found = Read::Found { posting, next };
        readings.expect(found, Book::Electric, &journal, place);
        place = next;
    }
    let end = Read::Refused { number: 1, place };
    readings.expect(end, Book::Electric, &journal, place);
}

/// A record of any kind and bit map with fields that are not 0, and at least a byte after it.
fn any_record(kind: u8, bit_map: u8, random: &mut Random) -> Vec<u8> {
    let mut bytes = vec![kind, bit_map];
    for _ in 0..8 {
        bytes.extend(nonzero(random).to_be_bytes());
    }
    bytes.push(random.bits() as u8);
    bytes
}

#[test]
fn readings_of_every_kind_and_bit_map_agree() {
    let (mut random, origin) = seeded(1);
    let mut readings = Readings::new(origin);
    for (kind, bit_map) in (0..=u16::MAX).map(|pair| pair.to_be_bytes().into()) {
        let bytes = any_record(kind, bit_map, &mut random);
        let right = 2 + 8 * bit_map.count_ones() as usize;
        let mut with_zero = bytes.clone();
        let zero_field = 2 + 8 * random.below(bit_map.count_ones().max(1) as usize);
        with_zero[zero_field..zero_field + 8].fill(0);
        for book in BOOKS {
            // The whole record is in memory past the end of a cut one, for a reader that goes there.
            for length in [0, 1, 2, 3, right - 1, right, right + 1, bytes.len()] {
                readings.read(book, &bytes[..length], 0);
                readings.read(book, &with_zero[..length], 0);
            }
        }
    }
    readings.met_at_least(1_000, &[1, 2, 3]);
    readings.met_at_least(10, &[0, 4, 5]);
}

#[test]
fn written_postings_are_read_back() {
    let (mut random, origin) = seeded(2);
    let mut readings = Readings::new(origin.clone());
    for case in 0..500_000 {
        let book = BOOKS[case % 2];
        let posting = posting_of(book, &mut random);
        let entry = Entry { book, posting };
        let mut before = [0; 64];
        random.fill(&mut before);
        let place = random.below(30);
        for side in [Entry::write_proved, Entry::write_twin] {
            let mut bytes = before;
            let Written::Length(length) = side(&entry, &mut bytes[place..]) else {
                panic!("{entry:?} is not written, {origin}");
            };
            let next = place + length;
            let found = Read::Found { posting, next };
            // With bytes after the record, and without.
            for end in [bytes.len(), next] {
                readings.expect(found, book, &bytes[..end], place);
            }
        }
    }
    readings.met_at_least(1_000_000, &[0]);
}

/// A run of records, and the place of each of them and of their end.
fn run_of_records(book: Book, random: &mut Random) -> (Vec<u8>, Vec<usize>) {
    let mut bytes = random_bytes(random, 3);
    let mut places = vec![bytes.len()];
    for _ in 0..=random.below(6) {
        bytes.extend(record_of(&posting_of(book, random)));
        places.push(bytes.len());
    }
    (bytes, places)
}

/// Reads one record after the other until a refusal, and gives the number and how many were found.
fn walk(readings: &mut Readings, book: Book, bytes: &[u8], mut place: usize) -> (Refusal, usize) {
    let mut found = 0;
    loop {
        match readings.read(book, bytes, place) {
            Read::Found { next, .. } => place = next,
            Read::Refused { number, .. } => return (number, found),
        }
        found += 1;
    }
}

#[test]
fn runs_of_records_are_read_whole() {
    let (mut random, origin) = seeded(3);
    let mut readings = Readings::new(origin.clone());
    for case in 0..100_000 {
        let book = BOOKS[case % 2];
        let (bytes, places) = run_of_records(book, &mut random);
        let met = walk(&mut readings, book, &bytes, places[0]);
        let whole = (1, places.len() - 1);
        assert_eq!(met, whole, "{book:?} run {bytes:02x?}, {origin}");
    }
    readings.met_at_least(1_000, &[0, 1]);
}

#[test]
fn readings_of_damaged_bytes_agree() {
    let (mut random, origin) = seeded(4);
    let mut readings = Readings::new(origin);
    for case in 0..200_000 {
        let book = BOOKS[case % 2];
        let (mut bytes, places) = run_of_records(book, &mut random);
        let record = random.below(places.len() - 1);
        let (start, end) = (places[record], places[record + 1]);
        // Half of the hits are in the head, since the fields are longer.
        let length = if random.coin() { 2 } else { end - start };
        let hit = start + random.below(length);
        // A change of one bit may leave a record that is nearly right.
        let change = if random.coin() {
            1 << random.below(8)
        } else {
            random.within(1, 255)
        };
        bytes[hit] ^= change as u8;
        walk(&mut readings, book, &bytes, places[0]);
        readings.read(book, &bytes, start);
    }
    readings.met_at_least(1_000, &[0, 1, 2, 3, 4]);
}

#[test]
fn readings_of_cut_records_agree() {
    let (mut random, origin) = seeded(5);
    let mut readings = Readings::new(origin);
    for case in 0..20_000 {
        let book = BOOKS[case % 2];
        let mut bytes = random_bytes(&mut random, 9);
        let place = bytes.len();
        bytes.extend(record_of(&posting_of(book, &mut random)));
        for end in 0..=bytes.len() {
            readings.read(book, &bytes[..end], place);
        }
        readings.read(book, &bytes[place..], 0);
    }
    readings.met_at_least(1_000, &[0, 1, 4]);
}

#[test]
fn readings_of_fields_of_zero_agree() {
    let (mut random, origin) = seeded(6);
    let mut readings = Readings::new(origin);
    for case in 0..200_000 {
        let book = BOOKS[case % 2];
        let mut bytes = random_bytes(&mut random, 9);
        let place = bytes.len();
        bytes.extend(record_of(&posting_of(book, &mut random)));
        let count = (bytes.len() - place) / 8;
        if count == 0 {
            continue;
        }
        let zero_field = place + 2 + 8 * random.below(count);
        bytes[zero_field..zero_field + 8].fill(0);
        let cut = zero_field + random.below(bytes.len() - zero_field);
        bytes.extend(random_bytes(&mut random, 9));
        let zero = Read::Refused { number: 5, place };
        readings.expect(zero, book, &bytes, place);
        // A record both cut and with a zero is cut.
        let cut_short = Read::Refused { number: 4, place };
        readings.expect(cut_short, book, &bytes[..cut], place);
    }
    readings.met_at_least(10_000, &[4, 5]);
}

/// Bytes of any kind, most with a head that could be a record's.
fn bytes_like_a_record(book: Book, random: &mut Random) -> Vec<u8> {
    let mut bytes = random_bytes(random, 40);
    let likely = [random.one_of(kinds(book)), random.below(9) as u8];
    let replaced = random.below(4).min(2).min(bytes.len());
    bytes[..replaced].copy_from_slice(&likely[..replaced]);
    if random.coin() {
        let zeros = random.below(bytes.len() + 1);
        bytes[zeros..].fill(0);
    }
    bytes
}

#[test]
fn readings_of_random_bytes_agree() {
    let (mut random, origin) = seeded(7);
    let mut readings = Readings::new(origin);
    for case in 0..RANDOM_CASES {
        let book = BOOKS[case % 2];
        let bytes = bytes_like_a_record(book, &mut random);
        readings.read(book, &bytes, 0);
        readings.read(book, &bytes, random.below(bytes.len() + 3));
    }
    readings.met_at_least(1_000, &[0, 1, 2, 3, 4, 5]);
}

#[test]
fn readings_at_every_place_agree() {
    let (mut random, origin) = seeded(8);
    let mut readings = Readings::new(origin);
    for case in 0..4_000 {
        let book = BOOKS[case % 2];
        let (mut bytes, _) = run_of_records(book, &mut random);
        bytes.truncate(random.below(bytes.len() + 1));
        for offset in 0..bytes.len() + 30 {
            readings.read(book, &bytes, offset);
            // Places that are small again if they are narrowed or if a sum with them goes round.
            for far in [1 << 32, 1 << 63, usize::MAX - 30, usize::MAX - bytes.len()] {
                let place = far.saturating_add(offset);
                let past = Read::Refused { number: 1, place };
                readings.expect(past, book, &bytes, place);
            }
        }
    }
    readings.met_at_least(1_000, &[0, 1, 2, 3, 4]);
}

#[test]
fn nothing_is_read_of_no_bytes() {
    let mut readings = Readings::new("no bytes".to_string());
    for place in [0, 1, 2, 3, 8, 1 << 32, usize::MAX - 1, usize::MAX] {
        for book in BOOKS {
            let refused = Read::Refused { number: 1, place };
            readings.expect(refused, book, &[], place);
        }
    }
}
