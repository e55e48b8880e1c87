//! Readers that are wrong in one thing.

use compare::against::Other;
use compare::readers::Readers;
use compare::Word;

use super::is_found_at_random;

const OWN: Readers = Readers::OWN;

#[test]
fn wrong_readers_are_found_out() {
    let wrong_ones = [
        // Folds more than letters.
        Readers {
            same: |one, other| {
                let fold = |text: &[u8]| text.iter().map(|octet| octet | 0x20).collect::<Vec<_>>();
                Word::number((fold(one) == fold(other)).into())
            },
            ..OWN
        },
        // Takes one text for a start of the other.
        Readers {
            same: |one, other| (OWN.same)(one, &other[..other.len().min(one.len())]),
            ..OWN
        },
        Readers {
            name_end: |octets, at| match (OWN.name_end)(octets, at) {
                Word { number: 1, a, .. } if a as usize == at + 255 => Word::FAULT,
                word => word,
            },
            ..OWN
        },
        // Cuts the place to 16 bits.
        Readers {
            name_end: |octets, at| (OWN.name_end)(octets, at % 65_536),
            ..OWN
        },
        Readers {
            requested_name: |octets, at| match (OWN.requested_name)(octets, at) {
                Word {
                    number: 2, a, b, ..
                } => Word::with(2, [a as usize, b as usize - 2, 0]),
                word => word,
            },
            ..OWN
        },
        Readers {
            requested_name: |octets, at| match (OWN.requested_name)(octets, at) {
                Word { number: 1, a, .. } if a as usize == at + 255 => Word::FAULT,
                word => word,
            },
            ..OWN
        },
        // Wants a value.
        Readers {
            property: |octets| match (OWN.property)(octets) {
                Word { a, .. } if a as usize == octets.len() => Word::FAULT,
                word => word,
            },
            ..OWN
        },
        Readers {
            tag: |octets| (OWN.tag)(&octets[..octets.len().min(9)]),
            ..OWN
        },
        Readers {
            tag: |octets| match octets.is_ascii() {
                true => (OWN.tag)(&octets.to_ascii_lowercase()),
                false => Word::number(1),
            },
            ..OWN
        },
        Readers {
            record: |octets, at| match (OWN.record)(octets, at) {
                Word { a, b, c, .. } if a > 65_536 => {
                    Word::with(1, [a as usize, b.saturating_add(1) as usize, c as usize])
                }
                word => word,
            },
            ..OWN
        },
        // Takes the blanks behind a name for its end.
        Readers {
            value: |octets| match (OWN.value)(octets) {
                Word {
                    number: 2, a, b, ..
                } if octets.get(a as usize) == Some(&b' ') => {
                    Word::with(2, [a as usize + 1, b as usize, 0])
                }
                word => word,
            },
            ..OWN
        },
        // Leaves something in a field that has no use.
        Readers {
            value: |octets| match (OWN.value)(octets) {
                Word { number: 1, .. } => Word::with(1, [0, 0, 1]),
                word => word,
            },
            ..OWN
        },
    ];
    for (number, readers) in wrong_ones.into_iter().enumerate() {
        let other = Other {
            readers: Some(readers),
            ..Other::NOTHING
        };
        assert!(is_found_at_random(other), "wrong readers {number}");
    }
}
