//! Every small value that is read, each once, ascending.
use variant_writer::{small_values, write_small_values, BatchReader, BatchRecord, Record, Refusal};

#[test]
fn exactly_those_that_are_read() {
    for (length, count, size) in [(1usize, 4, 49), (2, 384, 4_993), (3, 83_845, 1_173_831)] {
        let file = small_values(length).unwrap();
        let records: Vec<BatchRecord> = BatchReader::new(&file).unwrap().map(Result::unwrap).collect();
        assert_eq!((records.len(), file.len(), BatchReader::new(&file).unwrap().tail()), (count, size, 0));
        assert!(records.windows(2).all(|pair| pair[0].value < pair[1].value));
        assert!(records.iter().all(|r| r.value.len() == length && r.dictionary == [1, 0, 0] && r.read().is_ok()));
    }
    let all = |length: u32| (0..1u32 << (8 * length)).map(move |n| n.to_be_bytes()[4 - length as usize..].to_vec());
    for length in [1, 2] {
        let read = all(length).filter(|value| Record::read(&[1, 0, 0], value).is_ok());
        let file = small_values(length as usize).unwrap();
        assert!(BatchReader::new(&file).unwrap().map(|record| record.unwrap().value.to_vec()).eq(read));
    }
}

/// A refused call writes nothing, and of an output that is longer than needed only the file is written.
#[test]
fn outputs() {
    let mut out = [7; 60];
    for length in [0, 4, usize::MAX] {
        assert_eq!(write_small_values(length, &mut []), Err(Refusal::BadLength));
    }
    assert_eq!(write_small_values(1, &mut out[..48]), Err(Refusal::ValueFull));
    assert_eq!(out, [7; 60]);
    assert_eq!(write_small_values(1, &mut out), Ok(49));
    assert_eq!((&out[..13], &out[49..]), (&[1, 0, 0, 0, 8, 0, 0, 0, 3, 1, 0, 0, 0][..], &[7; 11][..]));
    assert_eq!(write_small_values(1, &mut out[..49]), Ok(49));
}
