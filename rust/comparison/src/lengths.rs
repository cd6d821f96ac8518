//! Lengths that are not the one that is due: how the generators make them, and as what a comparison counts them.
use crate::inputs::Rng;

/// How far off a length is.
#[derive(Clone, Copy, Debug, PartialEq, Eq, PartialOrd, Ord)]
pub enum Off {
    OneMore,
    OneLess,
    TwoMore,
    TwoLess,
    NoWords,
    Half,
    Double,
    /// 256 more: the low byte is the same.
    Far,
}

impl Off {
    pub const ALL: [Off; 8] = [
        Off::OneMore,
        Off::OneLess,
        Off::TwoMore,
        Off::TwoLess,
        Off::NoWords,
        Off::Half,
        Off::Double,
        Off::Far,
    ];

    fn length(self, due: usize) -> usize {
        match self {
            Off::OneMore => due + 1,
            Off::OneLess => due.saturating_sub(1),
            Off::TwoMore => due + 2,
            Off::TwoLess => due.saturating_sub(2),
            Off::NoWords => 0,
            Off::Half => due / 2,
            Off::Double => 2 * due,
            Off::Far => due + 256,
        }
    }

    /// As what a length counts that is not the due one. A short one may be of several sorts.
    pub fn of(length: usize, due: usize) -> impl Iterator<Item = Off> {
        let all = Off::ALL.into_iter();
        all.filter(move |off| length != due && off.length(due) == length)
    }
}

/// Another length than the due one.
pub fn other_length(r: &mut Rng, due: usize) -> usize {
    loop {
        let length = r.pick(&Off::ALL).length(due);
        if length != due {
            return length;
        }
    }
}

#[cfg(test)]
mod tests {
    use super::*;

    #[test]
    fn lengths_and_how_far_they_are_off() {
        let counted = |length, due| Off::of(length, due).collect::<Vec<_>>();
        assert_eq!(counted(4, 4), []);
        assert_eq!(counted(2, 4), [Off::TwoLess, Off::Half]);
        assert_eq!(counted(8, 4), [Off::Double]);
        assert_eq!(counted(260, 4), [Off::Far]);
        assert_eq!(counted(7, 4), []);
        assert_eq!(
            counted(0, 1),
            [Off::OneLess, Off::TwoLess, Off::NoWords, Off::Half]
        );
        assert_eq!(counted(1, 0), [Off::OneMore]);
    }
}
