//! What comparing tells, tried with this package as the other implementation.

use compare::against::{compare, Comparison, Other};
use compare::bench::YARDSTICK;
use compare::cases;
use compare::readers::Readers;
use compare::{Answer, Word};

const OWN: Readers = Readers::OWN;

fn compared(other: Other, cases: usize) -> Comparison {
    compare(&other, &cases::stored().unwrap(), cases, 1)
}

#[test]
fn we_agree_with_ourselves_and_every_answer_comes() {
    let comparison = compared(Other::OWN, 20_000);
    assert!(comparison.is_good(), "{comparison}");
    let told = comparison.to_string();
    assert!(told.ends_with("\ncompare: 20000 cases, 0 differ"), "{told}");
}

/// `compare library` compares it on more cases.
#[test]
fn the_yardstick_agrees_with_us() {
    let comparison = compared(YARDSTICK, 2_000);
    assert!(comparison.is_good(), "{comparison}");
    let told = comparison.to_string();
    assert!(told.starts_with("judge "), "{told}");
    assert!(told.contains("\nlist "), "{told}");
}

#[test]
fn what_the_other_has_not_is_not_compared() {
    let judge_only = Other {
        judge: Other::OWN.judge,
        ..Other::NOTHING
    };
    let told = compared(judge_only, 200).to_string();
    assert!(told.starts_with("judge "), "{told}");
    assert!(!told.contains("list "), "{told}");
    let readers_only = Other {
        readers: Other::OWN.readers,
        ..Other::NOTHING
    };
    let told = compared(readers_only, 200).to_string();
    assert!(!told.contains("judge "), "{told}");
    assert!(!told.contains("stored"), "{told}");
    let lines_only = Other {
        lines: Other::OWN.lines,
        ..Other::NOTHING
    };
    let told = compared(lines_only, 200).to_string();
    assert!(told.starts_with("write line "), "{told}");
    assert!(told.contains("\nread line "), "{told}");
    assert!(!told.contains("list "), "{told}");
    let sessions_only = Other {
        sessions: Other::OWN.sessions,
        ..Other::NOTHING
    };
    let told = compared(sessions_only, 200).to_string();
    assert!(told.starts_with("session open "), "{told}");
    assert!(told.contains("\nsession state "), "{told}");
    assert!(!told.contains("judge "), "{told}");
}

#[test]
fn a_record_may_be_read_with_or_without_its_caa_data() {
    let other = Other {
        readers: Some(Readers::OWN_WITH_CAA_DATA),
        ..Other::NOTHING
    };
    let comparison = compared(other, 1_000);
    assert!(comparison.is_good(), "{comparison}");
    assert!(comparison.to_string().contains("wrong CAA data is a fault"));
    assert!(comparison.to_string().contains("a wrong tag is not one"));

    let other = Other {
        readers: Some(Readers::OWN_WITH_TAGS),
        ..Other::NOTHING
    };
    let comparison = compared(other, 1_000);
    assert!(comparison.is_good(), "{comparison}");
    assert!(comparison
        .to_string()
        .contains("a wrong tag is one, and is one of the data"));

    let other = Other {
        readers: Some(Readers::OWN_WITH_ALL_DATA),
        ..Other::NOTHING
    };
    let comparison = compared(other, 1_000);
    assert!(comparison.is_good(), "{comparison}");
    assert!(comparison
        .to_string()
        .contains("a wrong target is one of the record"));

    let now_and_then = |octets: &[u8], at| match octets.len() {
        ..=20 => (Readers::OWN_WITH_CAA_DATA.record)(octets, at),
        _ => (OWN.record)(octets, at),
    };
    let other = Other {
        readers: Some(Readers {
            record: now_and_then,
            ..OWN
        }),
        ..Other::NOTHING
    };
    assert!(!compared(other, 1_000).differences.is_empty());

    // Looks into the targets of the root's aliases alone.
    let of_the_root = |octets: &[u8], at| match octets.get(at) {
        Some(0) => (Readers::OWN_WITH_ALL_DATA.record)(octets, at),
        _ => (Readers::OWN_WITH_TAGS.record)(octets, at),
    };
    let other = Other {
        readers: Some(Readers {
            record: of_the_root,
            ..Readers::OWN_WITH_TAGS
        }),
        ..Other::NOTHING
    };
    assert!(!compared(other, 1_000).differences.is_empty());

    // Takes a hyphen for a letter.
    let property = |octets: &[u8]| {
        let without: Vec<u8> = octets
            .iter()
            .map(|o| if *o == b'-' { b'a' } else { *o })
            .collect();
        (Readers::OWN_WITH_TAGS.property)(&without)
    };
    let other = Other {
        readers: Some(Readers { property, ..OWN }),
        ..Other::NOTHING
    };
    assert!(!compared(other, 1_000).differences.is_empty());
}

#[test]
fn a_difference_is_told_with_its_inputs_and_both_answers() {
    let other = Other {
        readers: Some(Readers {
            tag: |_| Word::with(7, [1, 2, 3]),
            ..OWN
        }),
        ..Other::NOTHING
    };
    let comparison = compared(other, 100);
    assert!(!comparison.is_good());
    assert_eq!(
        comparison.differences[1],
        "differs: tag\n  octets (1): 00\n  theirs: number 7, a 1, b 2, c 3\n  \
         ours:   number 0, a 0, b 0, c 0"
    );
    let told = comparison.to_string();
    assert!(told.ends_with("\ncompare: 0 cases, 5 differ"), "{told}");
}

#[test]
fn stored_cases_are_held_against_the_answers_worked_out_by_hand() {
    let other = Other {
        judge: Some(|_, _, _, _, _| Ok(Answer::Permitted)),
        ..Other::NOTHING
    };
    let comparison = compared(other, 0);
    assert!(comparison.wrong_stored().len() > 50);
    assert!(!comparison.is_good());
}
