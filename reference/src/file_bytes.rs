//! What becomes of the bytes of any file: cut, changed, followed by others, or noise.

use crate::numbers::number::{MORE_FOLLOW, MOST_GROUPS};
use crate::seeded::Seeded;
use std::iter;

/// The 256 byte values.
pub fn all_bytes() -> impl Iterator<Item = u8> {
    u8::MIN..=u8::MAX
}

/// Every proper prefix of a file.
pub fn cuts_of(whole: &[u8]) -> Vec<Vec<u8>> {
    let lengths = 0..whole.len();
    lengths.map(|length| whole[..length].to_vec()).collect()
}

/// The file with one byte changed.
pub fn with_byte(file: &[u8], place: usize, byte: u8) -> Vec<u8> {
    let mut changed = file.to_vec();
    changed[place] = byte;
    changed
}

/// The file with each byte changed to each of the values that are chosen for it.
pub fn each_byte_changed(whole: &[u8], values_for: impl Fn(u8) -> Vec<u8>) -> Vec<Vec<u8>> {
    let mut files = Vec::new();
    for (place, &byte) in whole.iter().enumerate() {
        let values = values_for(byte).into_iter();
        files.extend(values.map(|value| with_byte(whole, place, value)));
    }
    files
}

/// Every value there is, whatever the byte.
pub fn every_value(_byte: u8) -> Vec<u8> {
    all_bytes().collect()
}

/// Bytes that any byte is changed to, besides those with one bit flipped.
const TELLING_BYTES: [u8; 4] = [0, 1, MORE_FOLLOW, u8::MAX];

/// Values that tell whether each bit of a byte counts.
pub fn telling_values(byte: u8) -> Vec<u8> {
    let flipped = (0..u8::BITS).map(|bit| byte ^ (1 << bit));
    flipped.chain(TELLING_BYTES).collect()
}

/// Bytes that are repeated after whole files.
const BYTES_OF_RUNS_AFTER: [u8; 4] = [0x00, 0x01, 0x80, 0xFF];
/// The longest run of one byte after a whole file: one more than a number can have.
const LONGEST_RUN_AFTER: usize = 6;

/// What may come after a whole file: each single byte, and longer runs of bytes.
pub fn tails_of_bytes() -> Vec<Vec<u8>> {
    let single = all_bytes().map(|byte| vec![byte]);
    let mut tails: Vec<Vec<u8>> = single.collect();
    for length in 2..=LONGEST_RUN_AFTER {
        tails.extend(BYTES_OF_RUNS_AFTER.map(|byte| vec![byte; length]));
    }
    tails
}

/// How many bytes come after a file if there are many.
const MANY_BYTES_AFTER: usize = 300;

/// A file followed by one byte and by many, be they numbers or not, and by itself.
pub fn followed_by_few_and_many(whole: &[u8]) -> Vec<Vec<u8>> {
    let tails = [
        vec![0],
        vec![MORE_FOLLOW],
        vec![MORE_FOLLOW, 0],
        vec![u8::MAX; MOST_GROUPS],
        vec![1; MANY_BYTES_AFTER],
        vec![MORE_FOLLOW; MANY_BYTES_AFTER],
        whole.to_vec(),
    ];
    tails.map(|tail| [whole, &tail].concat()).to_vec()
}

/// A file cut at a seeded place; it must not be empty.
pub fn cut_short(mut file: Vec<u8>, seeded: &mut Seeded) -> Vec<u8> {
    file.truncate(seeded.up_to(file.len() - 1));
    file
}

/// The most bytes that are put after the last number.
const MOST_BYTES_AFTER: usize = 8;

/// A file with one or more seeded bytes after it.
pub fn with_bytes_after(file: Vec<u8>, seeded: &mut Seeded) -> Vec<u8> {
    let count = 1 + seeded.up_to(MOST_BYTES_AFTER - 1);
    let after = noise_of(count, Seeded::byte, seeded);
    [file, after].concat()
}

/// How one byte is hit.
#[derive(Clone, Copy)]
enum Hit {
    Changed,
    Removed,
    Inserted,
}

const HITS: [Hit; 3] = [Hit::Changed, Hit::Removed, Hit::Inserted];

/// The file with `hits` of its bytes hit; it must have at least as many.
pub fn with_hits(mut file: Vec<u8>, hits: usize, seeded: &mut Seeded) -> Vec<u8> {
    for _ in 0..hits {
        let place = seeded.up_to(file.len() - 1);
        match seeded.pick(&HITS) {
            Hit::Changed => file[place] = seeded.byte(),
            Hit::Removed => {
                file.remove(place);
            }
            Hit::Inserted => file.insert(place, seeded.byte()),
        }
    }
    file
}

/// The longest noise.
const LONGEST_NOISE: usize = 64;
/// How many files of each length and each sort of noise there are.
const NOISES_OF_A_LENGTH: usize = 70;
/// The largest byte of noise that looks like records.
const LARGEST_SMALL_BYTE: usize = 6;
/// One byte of such noise in this many is any byte.
const SMALL_BYTES_TO_ANY: usize = 8;

/// Seeded noise of every length: any bytes, and any or small bytes after the start of a file.
pub fn noise(starts: &[Vec<u8>], seed: u64) -> Vec<Vec<u8>> {
    let mut seeded = Seeded::new(seed);
    let mut files = Vec::new();
    for length in 0..=LONGEST_NOISE {
        for round in 0..NOISES_OF_A_LENGTH {
            let start = &starts[round % starts.len()];
            files.push(noise_of(length, Seeded::byte, &mut seeded));
            files.push(noise_after(start, length, Seeded::byte, &mut seeded));
            files.push(noise_after(start, length, small_byte, &mut seeded));
        }
    }
    files
}

/// `length` bytes, each drawn by itself.
fn noise_of(length: usize, draw: fn(&mut Seeded) -> u8, seeded: &mut Seeded) -> Vec<u8> {
    iter::repeat_with(|| draw(seeded)).take(length).collect()
}

/// A file of this length whose first bytes, as many as are drawn, are the start of another.
fn noise_after(
    start: &[u8],
    length: usize,
    draw: fn(&mut Seeded) -> u8,
    seeded: &mut Seeded,
) -> Vec<u8> {
    let kept = seeded.up_to(start.len().min(length));
    let noise = noise_of(length - kept, draw, seeded);
    [&start[..kept], &noise].concat()
}

/// Mostly a byte that is a small number by itself.
fn small_byte(seeded: &mut Seeded) -> u8 {
    if seeded.one_in(SMALL_BYTES_TO_ANY) {
        seeded.byte()
    } else {
        seeded.up_to(LARGEST_SMALL_BYTE) as u8
    }
}

#[cfg(test)]
mod tests {
    use super::*;

    #[test]
    fn cuts_are_all_shorter_files() {
        assert_eq!(cuts_of(&[1, 2]), [vec![], vec![1]]);
        assert_eq!(cuts_of(&[]).len(), 0);
    }

    #[test]
    fn one_byte_at_a_time_is_changed() {
        let files = each_byte_changed(&[5, 6], |byte| vec![byte + 10, 0]);
        assert_eq!(files, [[15, 6], [0, 6], [5, 16], [5, 0]]);
        assert_eq!(each_byte_changed(&[5, 6], every_value).len(), 512);
    }

    #[test]
    fn each_bit_is_flipped() {
        let values = telling_values(0x25);
        assert_eq!(
            values,
            [0x24, 0x27, 0x21, 0x2D, 0x35, 0x05, 0x65, 0xA5, 0x00, 0x01, 0x80, 0xFF]
        );
    }

    #[test]
    fn tails_are_single_bytes_and_runs() {
        let tails = tails_of_bytes();
        assert_eq!(tails.len(), 256 + 5 * 4);
        assert!(tails.contains(&vec![0xFF; 6]));
        assert!(tails.iter().all(|tail| !tail.is_empty()));
    }

    #[test]
    fn few_bytes_and_many_follow_a_file() {
        let files = followed_by_few_and_many(&[1, 2, 3]);
        assert!(files.iter().all(|file| file.starts_with(&[1, 2, 3])));
        let lengths: Vec<usize> = files.iter().map(Vec::len).collect();
        assert_eq!(lengths, [4, 4, 5, 8, 303, 303, 6]);
    }

    #[test]
    fn cut_file_is_shorter_and_followed_file_longer() {
        let mut seeded = Seeded::new(1);
        for _ in 0..50 {
            let cut = cut_short(vec![7; 3], &mut seeded);
            assert!(cut.len() < 3);
            let longer = with_bytes_after(vec![7; 3], &mut seeded);
            assert!((4..=11).contains(&longer.len()));
            assert_eq!(longer[..3], [7; 3]);
        }
    }

    #[test]
    fn hits_change_remove_and_insert() {
        let mut seeded = Seeded::new(1);
        let lengths: Vec<usize> = (0..50)
            .map(|_| with_hits(vec![7; 3], 1, &mut seeded).len())
            .collect();
        for length in 2..=4 {
            assert!(lengths.contains(&length));
        }
    }

    #[test]
    fn noise_has_every_length() {
        let files = noise(&[vec![1, 2, 3]], 1);
        assert_eq!(files.len(), 65 * 70 * 3);
        for length in 0..=64 {
            let of_length = files.iter().filter(|file| file.len() == length);
            assert_eq!(of_length.count(), 210);
        }
    }
}
