//! A run of many ticks: which lengths and settings it takes, and that it is its ticks one by one.
use comparison::inputs::{self, Rng};
use comparison::lengths::other_length;
use comparison::{Kind, TICK_WORDS, model};
use rattle::boundary::ANSWER_WORDS;
use rattle::guarded as calls;

/// A block with settings and a region that is started.
struct Started {
    kind: Kind,
    settings: Vec<u64>,
    region: Vec<u64>,
}

fn started(r: &mut Rng, kind: Kind) -> Started {
    let settings = inputs::accepted_settings(r, kind);
    let mut region = vec![0; model::state_length(kind, &settings).1];
    assert_eq!(calls::start(kind as u64, &settings, &mut region), 0);
    Started {
        kind,
        settings,
        region,
    }
}

/// So many words of ticks: half of the times go on, and others run back or are none.
fn ticks(r: &mut Rng, kind: Kind, words: usize) -> Vec<u64> {
    let tick = |n: usize| {
        let [first, second, third] = inputs::tick_inputs(r, kind);
        [inputs::time_after(r, n as f64), first, second, third]
    };
    let mut ticks = (0..words.div_ceil(TICK_WORDS))
        .map(tick)
        .collect::<Vec<_>>()
        .concat();
    ticks.truncate(words);
    ticks
}

impl Started {
    /// The refusal of a run, its region and its answers.
    fn run(&self, ticks: &[u64], answers: usize) -> (u64, Vec<u64>, Vec<u64>) {
        let (mut w, mut a) = (self.region.clone(), vec![9; answers]);
        let refused = calls::run(self.kind as u64, &self.settings, ticks, &mut w, &mut a);
        (refused, w, a)
    }

    /// What a refusal of this number leaves: all words as they were.
    fn refused(&self, number: u64, answers: usize) -> (u64, Vec<u64>, Vec<u64>) {
        (number, self.region.clone(), vec![9; answers])
    }

    /// The same, by single ticks.
    fn singly(&self, ticks: &[u64]) -> (u64, Vec<u64>, Vec<u64>) {
        let mut w = self.region.clone();
        let answer = |tick: &[u64]| {
            let tick = tick.try_into().expect("the words of a tick");
            let a = calls::tick(self.kind as u64, &self.settings, tick, &mut w);
            [a.refusal, a.real, a.boolean, a.warning]
        };
        let ticks = ticks.chunks_exact(TICK_WORDS);
        let answers: Vec<[u64; ANSWER_WORDS]> = ticks.map(answer).collect();
        (0, w, answers.concat())
    }
}

#[test]
fn a_run_takes_so_many_words_a_tick_and_an_answer() {
    let mut r = Rng::new(5, 1);
    for kind in Kind::ALL {
        let block = started(&mut r, kind);
        for (words, answers) in (0..=20).flat_map(|words| (0..=20).map(move |a| (words, a))) {
            let ticks = ticks(&mut r, kind, words);
            let whole = words % TICK_WORDS == 0 && answers == words / TICK_WORDS * ANSWER_WORDS;
            let due = if whole {
                block.singly(&ticks)
            } else {
                block.refused(14, answers)
            };
            assert!(
                block.run(&ticks, answers) == due,
                "{kind:?}, {words} and {answers} words"
            );
        }
    }
}

/// An answer space that is far too long or too short.
#[test]
fn a_run_takes_no_other_answer_space() {
    let mut r = Rng::new(5, 4);
    for kind in Kind::ALL.into_iter().flat_map(|kind| [kind; 40]) {
        let block = started(&mut r, kind);
        let ticks = ticks(&mut r, kind, TICK_WORDS * 3);
        let answers = other_length(&mut r, ANSWER_WORDS * 3);
        assert!(block.run(&ticks, answers) == block.refused(14, answers));
    }
}

#[test]
fn a_run_is_its_ticks_one_by_one() {
    let mut r = Rng::new(5, 2);
    for kind in Kind::ALL.into_iter().flat_map(|kind| [kind; 40]) {
        let block = started(&mut r, kind);
        let ticks = ticks(&mut r, kind, TICK_WORDS * 50);
        let due = block.singly(&ticks);
        assert!(block.run(&ticks, ANSWER_WORDS * 50) == due, "{kind:?}");
    }
}

/// A length that is refused refuses the run, and so do settings, which come first; 14 comes before both. Nothing is written.
#[test]
fn settings_and_lengths_refuse_the_run() {
    let mut r = Rng::new(5, 3);
    for kind in Kind::ALL.into_iter().flat_map(|kind| [kind; 40]) {
        let mut block = started(&mut r, kind);
        let ticks = ticks(&mut r, kind, TICK_WORDS * 3);
        let answers = ticks.len() / TICK_WORDS * ANSWER_WORDS;
        let length = other_length(&mut r, block.region.len());
        block.region.resize(length, 7);
        let number = |block: &Started, answers| {
            let ran = block.run(&ticks, answers);
            assert!(ran == block.refused(ran.0, answers), "{kind:?}");
            ran.0
        };
        assert_eq!(number(&block, answers), 3, "{kind:?}");
        inputs::refuse_setting(&mut r, kind, &mut block.settings);
        assert_eq!(number(&block, answers), 2, "{kind:?}");
        assert_eq!(number(&block, answers + 1), 14, "{kind:?}");
    }
}

/// A state and times that are refused are so tick by tick.
#[test]
fn refused_ticks_are_answered_one_by_one() {
    let mut r = Rng::new(5, 5);
    for kind in Kind::ALL {
        let mut block = started(&mut r, kind);
        if let Some(place) = kind.time_place(&block.settings) {
            let ticks = ticks(&mut r, kind, TICK_WORDS * 3);
            block.region[place] = f64::INFINITY.to_bits();
            let (refused, left, answers) = block.run(&ticks, ANSWER_WORDS * 3);
            assert!((refused, left) == (0, block.region.clone()), "{kind:?}");
            let numbers = answers.iter().step_by(ANSWER_WORDS);
            assert!(numbers.clone().all(|n| [5, 6].contains(n)), "{kind:?}");
        }
    }
}
