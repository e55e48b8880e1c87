//! Laws of the requirements on random lines and data.

use compare::generate::Generator;
use compare::limits::LINE_OCTETS;
use compare::{read_line, write_line, Made, Refusal};

type Convert = fn(&[u8], &mut [u8]) -> Made;

/// What is made with room enough, if anything is.
fn made(convert: Convert, given: &[u8]) -> Option<Vec<u8>> {
    let mut buffer = vec![0; LINE_OCTETS];
    match convert(given, &mut buffer) {
        Made::Octets(octets) => Some(buffer[..octets].to_vec()),
        Made::Refused(_) => None,
    }
}

/// CAA data with its tag in lower case.
fn small_tag(mut data: Vec<u8>) -> Vec<u8> {
    let value = 2 + usize::from(data[1]);
    data[2..value].make_ascii_lowercase();
    data
}

#[test]
fn what_is_written_reads_back_with_a_small_tag() {
    let mut generator = Generator::new(1);
    let mut times = 0;
    for _ in 0..10_000 {
        let data = generator.line_data();
        if let Some(line) = made(write_line, &data) {
            times += 1;
            assert_eq!(made(read_line, &line), Some(small_tag(data)));
        }
    }
    assert!(times > 5_000, "{times}");
}

#[test]
fn what_was_read_is_written_and_reads_the_same_again() {
    let mut generator = Generator::new(2);
    let mut times = 0;
    for _ in 0..10_000 {
        let line = generator.line();
        if let Some(data) = made(read_line, &line) {
            times += 1;
            let written = made(write_line, &data).unwrap();
            assert_eq!(made(read_line, &written), Some(small_tag(data)));
        }
    }
    assert!(times > 5_000, "{times}");
}

#[test]
fn room_is_enough_exactly_from_the_octets_told_on() {
    let mut generator = Generator::new(3);
    for _ in 0..5_000 {
        let inputs: [(Convert, Vec<u8>); 2] = [
            (write_line, generator.line_data()),
            (read_line, generator.line()),
        ];
        for (convert, given) in inputs {
            let Some(made) = made(convert, &given) else {
                continue;
            };
            let needed = made.len();
            let before = generator.buffer(needed + 3);
            let mut buffer = before.clone();
            assert_eq!(convert(&given, &mut buffer[..needed]), Made::Octets(needed));
            assert_eq!(buffer[..needed], made);
            assert_eq!(buffer[needed..], before[needed..]);
            let mut buffer = before.clone();
            assert_eq!(
                convert(&given, &mut buffer[..needed - 1]),
                Made::Refused(Refusal::BufferTooShort { needed })
            );
            assert_eq!(buffer, before);
        }
    }
}

/// What is refused with room enough is refused alike without, and no octet changes.
#[test]
fn other_refusals_dont_look_at_the_buffer() {
    let mut generator = Generator::new(4);
    let mut times = 0;
    for _ in 0..5_000 {
        let line = generator.line();
        let before = generator.buffer(LINE_OCTETS);
        let mut buffer = before.clone();
        let answer = read_line(&line, &mut buffer);
        if let Made::Refused(_) = answer {
            times += 1;
            assert_eq!(buffer, before);
            assert_eq!(read_line(&line, &mut []), answer);
        }
    }
    assert!(times > 500, "{times}");
}
