//! A bench sheet's rows as records and as words, what a sheet answers, and the calls that are compared.
use crate::Kind;

/// A row as words: the block's number, three columns, and the settings, after which come words that are not read.
pub const ROW_WORDS: usize = 17;

/// Where the settings begin in a row's words.
pub const SETTINGS: usize = 4;

/// Given by the boundary alone, before all others: the words name no rows.
pub const NO_BLOCK: u64 = 13;

/// A block with its settings, and three column numbers.
#[derive(Clone, Debug, PartialEq, Eq)]
pub struct Row {
    pub kind: Kind,
    pub settings: Vec<u64>,
    /// Each names a word of the tick, or from 8 on an answer word of a row further up.
    pub columns: [u64; 3],
}

/// The time and the eight input words of a tick.
#[derive(Clone, Copy, Debug, PartialEq, Eq)]
pub struct Tick {
    pub time: u64,
    pub words: [u64; 8],
}

/// What a sheet returns: the refusal, the topmost row at fault for 2, 6 and 7 or else 0, and the warning.
#[derive(Clone, Copy, Debug, PartialEq, Eq, Default)]
pub struct SheetAnswer {
    pub refusal: u64,
    pub row: u64,
    pub warning: bool,
}

impl SheetAnswer {
    #[must_use]
    pub fn refused(refusal: u64, row: usize) -> SheetAnswer {
        SheetAnswer {
            refusal,
            row: row as u64,
            warning: false,
        }
    }
}

/// The calls of a sheet over the words of its rows: the model's, a slipped model's, or those of a port.
#[derive(Clone, Copy)]
pub struct SheetCalls {
    /// Rows and region.
    pub start: fn(&[u64], &mut [u64]) -> SheetAnswer,
    /// Rows, tick, region and answers.
    pub tick: fn(&[u64], &Tick, &mut [u64], &mut [u64]) -> SheetAnswer,
}

impl Row {
    /// A row with its settings.
    #[must_use]
    pub fn new(kind: Kind, settings: &[u64], columns: [u64; 3]) -> Row {
        let settings = settings.to_vec();
        Row {
            kind,
            settings,
            columns,
        }
    }

    /// The row as words, with this word where none is read.
    #[must_use]
    pub fn words(&self, unread: u64) -> [u64; ROW_WORDS] {
        let mut words = [unread; ROW_WORDS];
        words[0] = self.kind as u64;
        words[1..SETTINGS].copy_from_slice(&self.columns);
        words[SETTINGS..][..self.settings.len()].copy_from_slice(&self.settings);
        words
    }

    /// The row that seventeen words name. None if the number is above 7, or a controller's type above 3.
    fn named(words: &[u64]) -> Option<Row> {
        let kind = Kind::ALL
            .into_iter()
            .find(|kind| *kind as u64 == words[0])?;
        let settings = &words[SETTINGS..][..kind.settings().len()];
        let row = Row::new(kind, settings, [words[1], words[2], words[3]]);
        (!kind.is_controller() || settings[0] <= 3).then_some(row)
    }
}

/// The words of rows, with 0 where none is read.
#[must_use]
pub fn words_of(rows: &[Row]) -> Vec<u64> {
    rows.iter().flat_map(|row| row.words(0)).collect()
}

/// The rows that the words name. None if they are not seventeen each, or any of them names no block.
#[must_use]
pub fn rows_of(words: &[u64]) -> Option<Vec<Row>> {
    let whole = words.len() % ROW_WORDS == 0;
    let rows = words.chunks(ROW_WORDS).map(Row::named);
    if whole { rows.collect() } else { None }
}
