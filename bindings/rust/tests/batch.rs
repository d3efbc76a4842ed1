//! Batch files: records added and read, every cut of a file, bad records, large counts; what is no batch is refused with 21.
use variant_writer::{batch_add, batch_start, sys, BatchReader, BatchRecord, BatchWriter, Refusal};

/// A dictionary and a value.
type Pair = (Vec<u8>, Vec<u8>);

/// Pairs with both, one or none empty, lengths at the edges of a byte.
fn pairs() -> Vec<Pair> {
    let sizes = [(3, 2), (0, 0), (0, 1), (1, 0), (7, 30), (251, 0), (0, 252), (255, 256), (1, 1)];
    sizes.iter().zip(1..).map(|((dictionary, value), fill)| (vec![fill; *dictionary], vec![fill + 100; *value])).collect()
}

/// A record's bytes, by the layout.
fn record((dictionary, value): &Pair) -> Vec<u8> {
    let numbers = [4 + dictionary.len() + value.len(), dictionary.len()].map(|n| (n as u32).to_be_bytes());
    [numbers.as_flattened(), dictionary, value].concat()
}

fn file(pairs: &[Pair]) -> Vec<u8> {
    [vec![1], pairs.iter().flat_map(record).collect()].concat()
}

/// The records that come out, a bad one as its number, and the tail's length.
fn read(file: &[u8]) -> (Vec<Result<Pair, u8>>, usize) {
    let mut reader = BatchReader::new(file).unwrap();
    let tail = reader.tail();
    let owned = |record: BatchRecord| (record.dictionary.to_vec(), record.value.to_vec());
    let records = reader.by_ref().map(|record| record.map(owned).map_err(Refusal::number)).collect();
    assert_eq!((reader.next(), reader.tail()), (None, tail));
    (records, tail)
}

fn whole(pairs: &[Pair]) -> Vec<Result<Pair, u8>> {
    pairs.iter().cloned().map(Ok).collect()
}

/// What an output of the word call holds before.
const OLD: usize = 77;

/// The word call's answer, and what its outputs hold then: kind, dictionary, value, next, tail.
fn told(file: &[u8], place: usize) -> (u8, [usize; 5]) {
    let (mut kind, [mut dictionary, mut value, mut next, mut tail]) = (OLD as u8, [OLD; 4]);
    let (at, len) = (file.as_ptr(), file.len());
    // SAFETY: the pointers are a borrow's, with its length, and those of mutable borrows
    let number = unsafe { sys::variant_batch_record_at(at, len, place, &mut kind, &mut dictionary, &mut value, &mut next, &mut tail) };
    (number, [kind.into(), dictionary, value, next, tail])
}

/// Adds by the word call. Refused, it leaves used count and bytes as they were (of a long file the first and the last are looked at).
fn add(file: &mut [u8], used: &mut usize, dictionary: &[u8], value: &[u8]) -> u8 {
    let ends = |file: &[u8]| [&file[..file.len().min(999)], &file[file.len().saturating_sub(999)..]].concat();
    let (before, used_before) = (ends(file), *used);
    let (at, len) = (file.as_mut_ptr(), file.len());
    // SAFETY: the pointers are those of borrows, with their lengths, the written ones mutable
    let number = unsafe { sys::variant_batch_add(at, len, used, dictionary.as_ptr(), dictionary.len(), value.as_ptr(), value.len()) };
    assert!(number == 0 || (ends(file), *used) == (before, used_before), "{number} changed something");
    number
}

/// Zeros that take up no memory until they are written; none where there is no room for so many.
fn zeros(len: usize) -> Option<Vec<u8>> {
    Vec::<u8>::new().try_reserve_exact(len).ok()?;
    Some(vec![0; len])
}

/// Over bytes of its own and over lent ones, where those behind the record are as they were.
#[test]
fn records_added() {
    let (mut batch, mut lent) = (BatchWriter::new(), vec![9; 2000]);
    let mut used = batch_start(&mut lent).unwrap();
    assert_eq!((batch.as_bytes(), used), (&[1][..], 1));
    for (at, pair) in pairs().iter().enumerate() {
        batch.add(&pair.0, &pair.1).unwrap();
        used = batch_add(&mut lent, used, &pair.0, &pair.1).unwrap();
        let expected = file(&pairs()[..=at]);
        assert_eq!((batch.as_bytes(), used), (&expected[..], expected.len()));
        assert_eq!(lent, [&expected[..], &vec![9; 2000 - used]].concat());
    }
    assert_eq!(BatchWriter::default().into_bytes(), [1]);
    assert_eq!(read(&batch.into_bytes()), (whole(&pairs()), 0));
}

/// A file cut after any byte past the first: the records wholly present come out, and the rest is the tail. Without it adding goes on, and all
/// records come out, old and new.
#[test]
fn every_cut() {
    let (pairs, file) = (pairs(), file(&pairs()));
    let ends: Vec<usize> = (0..=pairs.len()).map(|n| self::file(&pairs[..n]).len()).collect();
    for cut in 1..=file.len() {
        let present = ends.iter().rposition(|end| *end <= cut).unwrap();
        let mut kept = file[..cut].to_vec();
        assert_eq!(read(&kept), (whole(&pairs[..present]), cut - ends[present]), "cut after {cut}");
        kept.truncate(ends[present]);
        let mut batch = BatchWriter::from_bytes(kept);
        batch.add(b"dictionary", b"value").unwrap();
        batch.add(&[], &[]).unwrap();
        let added = [(b"dictionary".to_vec(), b"value".to_vec()), (vec![], vec![])];
        assert_eq!(read(batch.as_bytes()), (whole(&[&pairs[..present], &added].concat()), 0), "cut after {cut}");
    }
    assert_eq!(BatchReader::new(&file[..0]).err(), Some(Refusal::NotBatch));
}

/// A record comes out as the part of the caller's bytes that it occupies.
#[test]
fn parts_of_the_file() {
    let file = file(&pairs());
    let mut at = 1;
    for record in BatchReader::new(&file).unwrap().map(Result::unwrap) {
        let (dictionary, value) = (at + 8, at + 8 + record.dictionary.len());
        at = value + record.value.len();
        assert_eq!(record.dictionary.as_ptr_range(), file[dictionary..value].as_ptr_range());
        assert_eq!(record.value.as_ptr_range(), file[value..at].as_ptr_range());
    }
    assert_eq!(at, file.len());
}

/// The writer looks at the version alone: behind a tail it adds all the same.
#[test]
fn added_behind_a_tail() {
    let mut batch = BatchWriter::from_bytes(vec![1, 0, 0]);
    batch.add(&[], &[]).unwrap();
    assert_eq!(batch.as_bytes(), [1, 0, 0, 0, 0, 0, 4, 0, 0, 0, 0]);
    assert_eq!(read(batch.as_bytes()), (vec![Err(19)], 6));
}

/// A count below four, or a dictionary length that does not fit it, is the record's fault alone.
#[test]
fn bad_records() {
    let good = (vec![5; 3], vec![6; 2]);
    let mut bad: Vec<Vec<u8>> = (0..4).map(|count| [&[0, 0, 0, count][..], &vec![255; count.into()]].concat()).collect();
    for body in [0, 1, 7, 300] {
        for length in [body + 1, body + 4, 1 << 16, 1 << 31, u32::MAX] {
            bad.push([&(4 + body).to_be_bytes()[..], &length.to_be_bytes(), &vec![7; body as usize]].concat());
        }
    }
    let (mut all, mut expected) = (vec![1], vec![]);
    for bad in &bad {
        let alone = [&[1], &bad[..]].concat();
        assert_eq!(read(&alone), (vec![Err(19)], 0), "{bad:?}");
        assert_eq!(told(&alone, 1), (0, [1, OLD, OLD, alone.len(), OLD]));
        for cut in 1..alone.len() {
            assert_eq!(read(&alone[..cut]), (vec![], cut - 1), "{bad:?} cut after {cut}");
        }
        all.extend([&bad[..], &record(&good)].concat());
        expected.extend([Err(19), Ok(good.clone())]);
    }
    assert_eq!(read(&all), (expected, 0));
}

/// Whatever follows a count beyond the file is the tail.
#[test]
fn counts_beyond_the_file() {
    let records = file(&pairs());
    for count in [records.len() as u32, 1 << 16, 1 << 31, u32::MAX - 4, u32::MAX - 1, u32::MAX] {
        for behind in [&[][..], &records[1..]] {
            let file = [&records[..], &count.to_be_bytes(), behind].concat();
            assert_eq!(read(&file), (whole(&pairs()), 4 + behind.len()), "{count}");
        }
    }
    for tail in [&[0][..], &[255; 2], &[0, 0, 0], &[255; 4], &[0, 0, 0, 1]] {
        assert_eq!(read(&[&[1], tail].concat()), (vec![], tail.len()));
    }
}

/// Nothing is told of what is no batch, and nothing added to it.
#[test]
fn no_batch() {
    let others = (0..=u8::MAX).filter(|version| *version != 1).map(|version| [&[version], &file(&pairs())[1..]].concat());
    for mut file in others.chain([vec![]]) {
        assert_eq!(BatchReader::new(&file).err(), Some(Refusal::NotBatch));
        for place in [0, 1, 2, file.len(), usize::MAX] {
            assert_eq!(told(&file, place), (21, [OLD; 5]));
        }
        let mut batch = BatchWriter::from_bytes(file.clone());
        assert_eq!(batch.add(&[5], &[6]), Err(Refusal::NotBatch));
        assert_eq!(batch.into_bytes(), file);
        let len = file.len();
        assert_eq!([len, len + 1].map(|mut used| add(&mut file, &mut used, &[5], &[6])), [21, 1]);
    }
    assert_eq!(Refusal::NotBatch.number(), 21);
}

/// 1, then 21, then 14.
#[test]
fn order_of_refusals() {
    for (mut file, used, number) in [
        (vec![], 1, 1),
        (vec![2], 2, 1),
        (vec![1], usize::MAX, 1),
        (vec![], 0, 21),
        (vec![1; 99], 0, 21),
        (vec![2], 1, 21),
        (vec![2; 99], 1, 21),
        (vec![1], 1, 14),
        (vec![1; 10], 1, 14),
        (vec![1; 99], 99, 14),
        (vec![1; 99], 90, 14),
        (vec![1; 99], 89, 0),
        (vec![1; 11], 1, 0),
    ] {
        let mut then = used;
        assert_eq!(add(&mut file, &mut then, &[5], &[6]), number, "{} bytes, {used} used", file.len());
        assert_eq!(then, if number == 0 { used + 10 } else { used });
    }
    // SAFETY: the pointer is a mutable borrow's, with its length
    assert_eq!(unsafe { sys::variant_batch_start([].as_mut_ptr(), 0) }, 14);
    assert_eq!((batch_start(&mut []), batch_start(&mut [7])), (Err(Refusal::ValueFull), Ok(1)));
    let mut file = [7, 8];
    assert_eq!((batch_start(&mut file), file), (Ok(1), [1, 8]));
}

/// Every size of a buffer up to the record's.
#[test]
fn too_short() {
    for pair in pairs() {
        let used = 5;
        for spare in 0..record(&pair).len() {
            let mut file = vec![1; used + spare];
            assert_eq!(add(&mut file, &mut used.clone(), &pair.0, &pair.1), 14);
        }
        let mut file = vec![1; used + record(&pair).len()];
        assert_eq!(add(&mut file, &mut used.clone(), &pair.0, &pair.1), 0);
        assert_eq!(file, [vec![1; used], record(&pair)].concat());
    }
}

/// What is told of each place, any place: below 1 as at 1, past the end a tail of no bytes.
#[test]
fn every_place() {
    let file = [1, 0, 0, 0, 7, 0, 0, 0, 2, 7, 8, 9, 0, 0, 0, 0, 255];
    for (place, words) in [
        (0, [0, 9, 11, 12, OLD]),
        (1, [0, 9, 11, 12, OLD]),
        (2, [2, OLD, OLD, OLD, 15]),
        (3, [2, OLD, OLD, OLD, 14]),
        (5, [1, OLD, OLD, 11, OLD]),
        (12, [1, OLD, OLD, 16, OLD]),
        (13, [2, OLD, OLD, OLD, 4]),
        (16, [2, OLD, OLD, OLD, 1]),
        (17, [2, OLD, OLD, OLD, 0]),
        (18, [2, OLD, OLD, OLD, 0]),
        (usize::MAX - 3, [2, OLD, OLD, OLD, 0]),
        (usize::MAX, [2, OLD, OLD, OLD, 0]),
    ] {
        assert_eq!(told(&file, place), (0, words), "place {place}");
    }
}

/// The largest count, over 4 GiB of zeros that are never written, and records behind it.
#[test]
fn largest_count() {
    let Some(mut file) = zeros((1 << 32) + 99) else { return };
    let next = 5 + u32::MAX as usize;
    file[..9].copy_from_slice(&[1, 255, 255, 255, 255, 255, 255, 255, 251]);
    assert_eq!(told(&file, 1), (0, [0, 9, next, next, OLD]));
    file[8] = 252;
    assert_eq!(told(&file, 1), (0, [1, OLD, OLD, next, OLD]));
    assert_eq!(told(&file[..next - 1], 1), (0, [2, OLD, OLD, OLD, next - 2]));
    let mut used = next;
    assert_eq!(add(&mut file, &mut used, &[7, 8], &[9]), 0);
    assert_eq!(used, next + 11);
    let mut reader = BatchReader::new(&file[..used + 3]).unwrap();
    assert_eq!((reader.next(), reader.tail()), (Some(Err(Refusal::Malformed)), 3));
    assert_eq!(reader.next(), Some(Ok(BatchRecord { dictionary: &[7, 8], value: &[9] })));
    assert_eq!(reader.next(), None);
}

/// A record that would have a count of 2^32 or more is refused with 14, however long the buffer; one that does not fit, too.
#[test]
fn too_large_a_record() {
    let (Some(bytes), Some(mut file)) = (zeros(1 << 32), zeros((1 << 32) + 99)) else { return };
    file[0] = 1;
    let most = u32::MAX as usize - 4;
    let mut batch = BatchWriter::new();
    for (dictionary, value) in [(most + 1, 0), (0, most + 1), (most, 1), (1, most), (1 << 31, 1 << 31), (1 << 32, 1 << 32)] {
        assert_eq!(add(&mut file, &mut 1, &bytes[..dictionary], &bytes[..value]), 14);
        assert_eq!(batch.add(&bytes[..dictionary], &bytes[..value]), Err(Refusal::ValueFull));
    }
    assert_eq!(batch.into_bytes(), [1]);
    let len = file.len() - most;
    assert_eq!(add(&mut file, &mut len.clone(), &bytes[..most], &[]), 14);
}
