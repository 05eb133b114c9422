//! What a piece says about a test: it holds, is contradicted, or is not known.

use crate::notation::{places, Piece, Term, What};
use crate::sheet_tests::{Test, Want};

/// What is known of a test.
#[derive(Clone, Copy, Debug, PartialEq, Eq)]
pub enum Truth {
    Holds,
    NotKnown,
    Contradicted,
}

/// What a piece has at a place.
#[derive(Clone, Copy, Debug)]
pub enum Found<'a> {
    Term(&'a Term),
    /// The place is below an unknown.
    BelowUnknown,
    /// The piece lacks it.
    Lacking,
}

impl Truth {
    fn of(holds: bool) -> Truth {
        match holds {
            true => Truth::Holds,
            false => Truth::Contradicted,
        }
    }

    /// The truth in words.
    pub fn words(self) -> &'static str {
        match self {
            Truth::Holds => "holds",
            Truth::NotKnown => "not known",
            Truth::Contradicted => "contradicted",
        }
    }
}

/// What a piece has at a place. A place below a reading that will never come has that reading.
pub fn find(piece: &Piece, place: u16) -> Found<'_> {
    let Some(path) = places::path(place) else { return Found::Lacking };
    let mut terms: &[Term] = &piece.terms;
    let mut found = Found::Lacking;
    for step in path {
        match found {
            Found::Term(Term { what: What::Unknown, .. }) => return Found::BelowUnknown,
            Found::Term(Term { what: What::Never, .. }) => return found,
            _ => {}
        }
        let Some(term) = terms.get(usize::from(step) - 1) else { return Found::Lacking };
        (found, terms) = (Found::Term(term), term.arguments());
    }
    found
}

/// Whether the reading at a place will never come.
pub fn is_never(piece: &Piece, place: u16) -> bool {
    matches!(find(piece, place), Found::Term(Term { what: What::Never, .. }))
}

/// Whether the reading at a place will never come, or one inside it: then the place differs from every other.
fn holds_never(piece: &Piece, place: u16) -> bool {
    matches!(find(piece, place), Found::Term(term) if term.what.holds_never())
}

/// The places of a test at which a reading that will never come contradicts it: a compound is what it is whatever it
/// holds, but where it is compared a reading inside it tells, too.
pub fn nevers(piece: &Piece, test: Test) -> Vec<u16> {
    match test {
        Test::Place(place) => is_never(piece, place).then_some(place).into_iter().collect(),
        Test::Pair(p, q) => [p, q].into_iter().filter(|place| holds_never(piece, *place)).collect(),
    }
}

/// Whether a rule's want at a place holds.
pub fn wanted(piece: &Piece, place: u16, want: Want) -> Truth {
    let term = match find(piece, place) {
        Found::Term(term) => term,
        Found::BelowUnknown => return Truth::NotKnown,
        Found::Lacking => return Truth::Contradicted,
    };
    match (&term.what, want) {
        (What::Unknown, _) => Truth::NotKnown,
        (What::Symbol(id), Want::Symbols(low, high)) => Truth::of(low <= *id && *id <= high),
        (What::Compound(id, arguments), Want::Compound(other, arity)) => {
            Truth::of(*id == other && arguments.len() == usize::from(arity))
        }
        (what, Want::Numbers(gauge, low, high)) => match what.numbers() {
            Some((on, a, b)) if on == gauge => within((a, b), (low, high)),
            _ => Truth::Contradicted,
        },
        _ => Truth::Contradicted,
    }
}

/// Whether a number between two lies in a range of its gauge: it does, it does not, or only the exact number tells.
fn within((a, b): (u16, u16), (low, high): (u16, u16)) -> Truth {
    match (low <= a && b <= high, b < low || high < a) {
        (true, _) => Truth::Holds,
        (_, true) => Truth::Contradicted,
        _ => Truth::NotKnown,
    }
}

/// Whether two places are equal. A reading that will never come differs from every term, from itself and from unknowns
/// too.
pub fn equal(piece: &Piece, p: u16, q: u16) -> Truth {
    match (find(piece, p), find(piece, q)) {
        (Found::Lacking, _) | (_, Found::Lacking) => Truth::Contradicted,
        _ if [p, q].into_iter().any(|place| holds_never(piece, place)) => Truth::Contradicted,
        (Found::Term(a), Found::Term(b)) => same(a, b),
        _ => Truth::NotKnown,
    }
}

/// A piece with all its numbers on gauge 0.
pub fn without_gauges(piece: &Piece) -> Piece {
    fn on_zero(terms: &mut [Term]) {
        for term in terms {
            match &mut term.what {
                What::Gauged(_, value) => term.what = What::Number(*value),
                What::Compound(_, arguments) => on_zero(arguments),
                _ => {}
            }
        }
    }
    let mut piece = piece.clone();
    on_zero(&mut piece.terms);
    piece
}

/// Whether two terms are the same, in which all readings may still come.
fn same(a: &Term, b: &Term) -> Truth {
    match (&a.what, &b.what) {
        (What::Unknown, _) | (_, What::Unknown) => Truth::NotKnown,
        (What::Symbol(a), What::Symbol(b)) => Truth::of(a == b),
        (What::Compound(f, xs), What::Compound(g, ys)) if f == g && xs.len() == ys.len() => {
            let each = xs.iter().zip(ys).map(|(x, y)| same(x, y));
            each.fold(Truth::Holds, |all, next| match (all, next) {
                (Truth::Contradicted, _) | (_, Truth::Contradicted) => Truth::Contradicted,
                (Truth::Holds, Truth::Holds) => Truth::Holds,
                _ => Truth::NotKnown,
            })
        }
        (a, b) => match (a.numbers(), b.numbers()) {
            (Some(a), Some(b)) => same_number(a, b),
            _ => Truth::Contradicted,
        },
    }
}

/// Whether two numbers are the same, each on a gauge and known to lie between two: they differ on two gauges, and are not
/// known on one unless there is one each, or none in common.
fn same_number((gauge, a, b): (u8, u16, u16), (other, c, d): (u8, u16, u16)) -> Truth {
    match (gauge != other || b < c || d < a, a == b && c == d) {
        (true, _) => Truth::Contradicted,
        (_, true) => Truth::Holds,
        _ => Truth::NotKnown,
    }
}

#[cfg(test)]
mod tests {
    use super::*;
    use crate::notation::{parse_piece, Names};

    /// All pairs of low and high up to this number.
    fn spans(most: u16) -> impl Iterator<Item = (u16, u16)> {
        (0..=most).flat_map(move |low| (low..=most).map(move |high| (low, high)))
    }

    /// What is known if these are the answers of all fillings.
    fn known(mut answers: impl Iterator<Item = bool>) -> Truth {
        let first = answers.next().expect("a filling");
        match answers.all(|answer| answer == first) {
            true => Truth::of(first),
            false => Truth::NotKnown,
        }
    }

    fn read(text: String) -> Piece {
        parse_piece(&text, &Names::default()).expect("a piece")
    }

    #[test]
    fn a_range_is_tested_as_all_numbers_of_a_span_say() {
        for ((a, b), (low, high)) in spans(6).flat_map(|span| spans(6).map(move |range| (span, range))) {
            let piece = read(format!("({a}..{b}?)"));
            let all = known((a..=b).map(|number| (low..=high).contains(&number)));
            assert_eq!(wanted(&piece, 0, Want::Numbers(0, low, high)), all, "{a}..{b}? in {low}..{high}");
        }
    }

    #[test]
    fn a_series_is_tested_by_its_ends() {
        let ids = [0, 1, 9, 10, 11, 65535];
        for (id, (low, high)) in ids.into_iter().flat_map(|id| spans(12).map(move |series| (id, series))) {
            let piece = read(format!("(#{id}, #{id}(?), {id})"));
            let said = Truth::of((low..=high).contains(&id));
            assert_eq!(wanted(&piece, 0, Want::Symbols(low, high)), said, "#{id} in #{low}..#{high}");
            // Neither a compound nor a number is a symbol.
            for place in [85, 170] {
                assert_eq!(wanted(&piece, place, Want::Symbols(low, high)), Truth::Contradicted);
            }
        }
        assert_eq!(wanted(&read("(?)".into()), 0, Want::Symbols(0, 65535)), Truth::NotKnown);
    }

    #[test]
    fn spans_are_compared_as_all_their_numbers_are() {
        for ((a, b), (c, d)) in spans(6).flat_map(|span| spans(6).map(move |other| (span, other))) {
            let numbers = (a..=b).flat_map(|m| (c..=d).map(move |n| m == n));
            let all = known(numbers);
            let piece = read(format!("({a}..{b}?, {c}..{d}?, #1({a}..{b}?), #1({c}..{d}?))"));
            assert_eq!(equal(&piece, 0, 85), all, "{a}..{b}? and {c}..{d}?");
            assert_eq!(equal(&piece, 170, 255), all, "#1({a}..{b}?) and #1({c}..{d}?)");
        }
    }

    #[test]
    fn a_span_is_a_number_to_all_else() {
        let piece = read("(5..9?, #5, #5(7), ?, 7)".into());
        let [contradicted, unknown] = [Truth::Contradicted, Truth::NotKnown];
        assert_eq!(
            [85, 170, 255, 340].map(|other| equal(&piece, 0, other)),
            [contradicted, contradicted, unknown, unknown]
        );
        assert_eq!(wanted(&piece, 0, Want::Symbols(5, 9)), contradicted);
        assert_eq!(wanted(&piece, 0, Want::Compound(5, 1)), contradicted);
        // Nothing is below a span.
        assert_eq!(wanted(&piece, 1, Want::Numbers(0, 0, 9)), contradicted);
        assert!(matches!(find(&piece, 1), Found::Lacking));
    }

    /// Terms that are or hold a reading which will never come, and terms beside them.
    const NEVERS: [&str; 4] = ["!", "#1(!)", "#1(?, !)", "#1(#2(?, #3(!)))"];
    const OTHERS: [&str; 8] = ["?", "7", "5..9?", "#1", "#1(?)", "#1(?, ?)", "#1(?, 5)", "#1(#2(?, ?))"];

    #[test]
    fn what_will_never_come_differs_from_every_term() {
        for (one, other) in NEVERS.iter().flat_map(|one| NEVERS.iter().chain(&OTHERS).map(move |o| (one, o)))
        {
            let piece = read(format!("({one}, {other})"));
            assert_eq!(equal(&piece, 0, 85), Truth::Contradicted, "{one} and {other}");
            assert_eq!(
                equal(&read(format!("({other}, {one})")), 0, 85),
                Truth::Contradicted,
                "{other} and {one}"
            );
            // It is by the reading that they differ, not by what stands around it.
            let late = read(format!("({one}, {one})").replace('!', "?"));
            assert_eq!(equal(&late, 0, 85), Truth::NotKnown, "{one} twice, not read yet");
        }
    }

    #[test]
    fn what_will_never_come_contradicts_every_place_test() {
        let piece = read("(!, #5(!))".into());
        for want in [Want::Symbols(0, 65535), Want::Compound(5, 1), Want::Numbers(0, 0, 65535)] {
            // At the reading, and at places below it, whether or not it is inside a compound.
            for place in [0, 1, 2, 84, 86, 87] {
                assert_eq!(wanted(&piece, place, want), Truth::Contradicted, "{want:?} at {place}");
                assert!(
                    matches!(find(&piece, place), Found::Term(Term { what: What::Never, .. })),
                    "{place}"
                );
            }
        }
        // A compound that holds one is that compound; a place that it lacks is lacking.
        assert_eq!(wanted(&piece, 85, Want::Compound(5, 1)), Truth::Holds);
        assert!(matches!(find(&piece, 107), Found::Lacking));
    }

    #[test]
    fn a_place_below_what_will_never_come_differs_too() {
        let piece = read("(!, ?, 7, ?)".into());
        // Beside itself, an unknown, a place below one, a number, and a place that is lacking.
        for (p, q) in [(0, 1), (1, 2), (1, 85), (1, 86), (1, 170), (1, 171)] {
            assert_eq!(equal(&piece, p, q), Truth::Contradicted, "{p} and {q}");
        }
        for (p, q) in [(85, 86), (86, 256), (85, 170)] {
            assert_eq!(equal(&piece, p, q), Truth::NotKnown, "{p} and {q}");
        }
    }
}
