//! What the drivers of a speed comparison share: the case that they are asked for, and that its sides agree.

/// The case that the program's arguments name, and what they say behind its name. If they say nothing the cases are printed.
#[must_use]
pub fn asked<C>(cases: Vec<C>, name: impl Fn(&C) -> &str) -> Option<(C, Vec<String>)> {
    let mut args = std::env::args().skip(1);
    let (wanted, rest) = (args.next(), args.collect::<Vec<_>>());
    if rest.is_empty() {
        cases.iter().for_each(|case| println!("{}", name(case)));
        return None;
    }
    let named = |case: &C| wanted.as_deref() == Some(name(case));
    let case = cases.into_iter().find(named);
    Some((case.expect("a case has this name"), rest))
}

/// Fails unless there are two sides or more, and all give the same.
pub fn assert_alike<A: PartialEq>(case: &str, sides: &[A]) {
    assert!(sides.len() > 1, "{case}: there is one side alone");
    let alike = sides.windows(2).all(|two| two[0] == two[1]);
    assert!(alike, "{case}: the sides differ");
}
