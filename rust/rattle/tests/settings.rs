//! Words that name no block are refused with 13 by every call, before all else, and nothing is written.
use comparison::{Kind, TICK_WORDS, TickWords};
use rattle::boundary::{ANSWER_WORDS, AnswerWords, LengthWords, StateWords};
use rattle::guarded as calls;

/// Numbers of blocks and of none.
fn numbers() -> impl Iterator<Item = u64> {
    (0..=10).chain([1 << 32, 1 << 63, u64::MAX])
}

/// Types of controllers and of none; as another block's setting a real that is finite, or not.
const TYPES: [u64; 11] = [
    0,
    1,
    2,
    3,
    4,
    5,
    1 << 32,
    (1 << 32) + 1,
    1 << 63,
    0x3FF0_0000_0000_0000,
    u64::MAX,
];

/// So many settings, the first of which is a type or any word.
fn settings(first: u64, count: usize) -> Vec<u64> {
    let mut s = vec![1f64.to_bits(); count];
    if let Some(word) = s.first_mut() {
        *word = first;
    }
    s
}

/// As many settings as the block has, and a controller's type is one of four.
fn names_a_block(block: u64, s: &[u64]) -> bool {
    let kind = Kind::ALL.iter().find(|kind| **kind as u64 == block);
    kind.is_some_and(|kind| kind.settings().len() == s.len() && !(kind.is_controller() && s[0] > 3))
}

const REFUSED: AnswerWords = AnswerWords {
    refusal: 13,
    real: 0,
    boolean: 0,
    warning: 0,
};

/// The time is none and the words are no region's: but for 13 these calls have other faults.
const TICK: TickWords = [u64::MAX; TICK_WORDS];

/// How many of the eight calls refuse with 13, and with zeros. What they are lent is of these lengths, and must stay.
fn refusals(block: u64, s: &[u64], region: usize, ticks: usize, answers: usize) -> usize {
    let (mut w, ticks, mut a) = (vec![7; region], vec![7; ticks], vec![9; answers]);
    let length = calls::length(block, s);
    let state = calls::decode(block, s, &w);
    let refused = [
        length
            == LengthWords {
                refusal: 13,
                length: 0,
            },
        calls::start(block, s, &mut w) == 13,
        calls::emit(block, s, TICK, &w) == REFUSED,
        calls::update(block, s, TICK, &mut w) == REFUSED,
        calls::tick(block, s, TICK, &mut w) == REFUSED,
        state
            == StateWords {
                refusal: 13,
                words: [0; 6],
            },
        calls::run(block, s, &ticks, &mut w, &mut a) == 13,
    ];
    let refused = refused.into_iter().filter(|is| *is).count();
    if refused > 0 {
        assert_eq!(calls::sound(block, s, &w), 0);
        assert!(w.iter().all(|word| *word == 7) && a.iter().all(|word| *word == 9));
    }
    refused
}

/// Every number with every number of settings, each first word among them: all seven that answer a refusal give 13, or none.
#[test]
fn exactly_the_words_that_name_no_block_are_refused() {
    for block in numbers() {
        for (count, first) in (0..=20).flat_map(|count| TYPES.map(|first| (count, first))) {
            let s = settings(first, count);
            let due = if names_a_block(block, &s) { 0 } else { 7 };
            for (region, ticks) in [(0, 0), (3, 1), (5, 2)] {
                let (ticks, answers) = (TICK_WORDS * ticks, ANSWER_WORDS * ticks);
                let got = refusals(block, &s, region, ticks, answers);
                assert_eq!(
                    got, due,
                    "block {block}, {count} settings, the first {first:X}"
                );
            }
        }
    }
}

/// 13 comes before 14, and before every region and answer space of any length.
#[test]
fn no_lengths_hide_it() {
    for (region, ticks, answers) in
        (0..6).flat_map(|n| (0..6).flat_map(move |m| (0..6).map(move |k| (n, m, k))))
    {
        assert_eq!(refusals(8, &[], region, ticks, answers), 7);
        assert_eq!(refusals(0, &settings(4, 13), region, ticks, answers), 7);
        assert_eq!(refusals(4, &settings(0, 1), region, ticks, answers), 7);
    }
}
