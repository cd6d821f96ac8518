//! How near a tick comes to a limit at which a rule turns.
use crate::inputs::{next_down, next_up};

/// At a limit, or on the float beside it.
#[derive(Clone, Copy, Debug, PartialEq, Eq, PartialOrd, Ord)]
pub enum Side {
    Below,
    At,
    Above,
}

impl Side {
    pub const ALL: [Side; 3] = [Side::Below, Side::At, Side::Above];
}

/// Where a rising function stands by a limit.
pub(crate) fn side(t: f64, limit: f64, of: impl Fn(f64) -> f64) -> Option<Side> {
    let x = of(t);
    if x == limit {
        Some(Side::At)
    } else if x < limit && of(next_up(t)) >= limit {
        Some(Side::Below)
    } else if x > limit && of(next_down(t)) <= limit {
        Some(Side::Above)
    } else {
        None
    }
}

#[cfg(test)]
mod tests {
    use super::*;

    #[test]
    fn sides_of_a_limit() {
        let since = |t: f64| t - 0.1;
        let limit = since(0.3);
        let sides = [next_down(0.3), 0.3, next_up(0.3), 0.4].map(|t| side(t, limit, since));
        assert_eq!(sides[..3], Side::ALL.map(Some));
        assert_eq!(sides[3], None);
    }
}
