//! How a sheet's tests are counted, and question 11: at most 64 of them.

use voltunnis_tests::both::check_sheet;
use voltunnis_tests::generate::trees::{Pattern, SheetTree};

use Pattern::{Anything, Compound, Range, Ranged, Symbol, Variable};

/// How many tests the sheet with these rules has, or its refusal.
fn tests(rules: &[Vec<Pattern>]) -> Result<u8, u8> {
    let sheet = SheetTree { arity: rules[0].len() as u8, rules: rules.to_vec() };
    check_sheet(&sheet.bytes()).map(|size| size.tests)
}

/// Patterns of full depth: at each of 512 leaves this one.
fn full(arity: usize, leaf: &Pattern) -> Vec<Pattern> {
    fn tree(depth: usize, leaf: &Pattern) -> Pattern {
        if depth == 4 {
            return leaf.clone();
        }
        Compound(1, vec![tree(depth + 1, leaf); 4])
    }
    vec![tree(1, leaf); arity]
}

/// A rule of 7 compounds of arity 4, the first so many of its 28 arguments this pattern.
fn leaves(count: usize, leaf: Pattern) -> Vec<Pattern> {
    let all: Vec<Pattern> = (0..28).map(|at| if at < count { leaf.clone() } else { Anything }).collect();
    let mut rule: Vec<Pattern> = all.chunks(4).map(|four| Compound(1, four.to_vec())).collect();
    rule.push(Anything);
    rule
}

#[test]
fn a_test_is_a_place_or_a_pair_whatever_is_wanted_there() {
    let wants: Vec<Vec<Pattern>> = (0..64).map(|id| vec![Symbol(id)]).collect();
    assert_eq!(tests(&wants), Ok(1));
    assert_eq!(tests(&[vec![Symbol(1), Anything], vec![Anything, Range(1, 2)]]), Ok(2));
    assert_eq!(tests(&[vec![Variable(0), Variable(0)], vec![Variable(9), Variable(9)]]), Ok(1));
}

#[test]
fn a_variable_has_a_test_for_each_of_its_pairs() {
    for count in 1..=8_u8 {
        let mut rule = vec![Anything; 8];
        rule[..usize::from(count)].fill(Variable(3));
        assert_eq!(tests(&[rule]), Ok(count * (count - 1) / 2));
    }
}

#[test]
fn a_ranged_record_gives_a_place_test_at_all_places_of_its_variable() {
    assert_eq!(tests(&[vec![Ranged(0, 1, 9), Variable(0), Variable(0)]]), Ok(6));
    assert_eq!(tests(&[vec![Ranged(0, 1, 9), Variable(1), Variable(1)]]), Ok(2));
}

#[test]
fn sixty_four_tests_are_accepted_and_sixty_five_are_not() {
    // 55 pairs of 11 places, the compounds' 7 places, and 2 or 3 further places.
    let crowd = |further: usize| {
        let mut rule = leaves(11, Variable(0));
        let Compound(_, last) = &mut rule[6] else { unreachable!() };
        last[..further].fill(Symbol(1));
        rule
    };
    assert_eq!(tests(&[crowd(2)]), Ok(64));
    assert_eq!(tests(&[crowd(3)]), Err(11));
    assert_eq!(tests(&vec![crowd(2); 64]), Ok(64));
    assert_eq!(tests(&[crowd(2), crowd(3)]), Err(11));
    // The 65th test is a place, after 66 pairs, and a pair, after 64 places.
    assert_eq!(tests(&[leaves(12, Variable(0))]), Err(11));
    let places = full(3, &Anything);
    assert_eq!(tests(std::slice::from_ref(&places)), Ok(63));
    let mut with_symbol = places.clone();
    with_symbol.push(Symbol(1));
    with_symbol.push(Anything);
    assert_eq!(tests(&[with_symbol.clone()]), Ok(64));
    with_symbol[4] = Variable(0);
    with_symbol.push(Variable(0));
    assert_eq!(tests(&[with_symbol]), Err(11));
}

#[test]
fn question_10_comes_before_11() {
    let sheet = SheetTree { arity: 1, rules: vec![full(1, &Symbol(1))] };
    let mut bytes = sheet.bytes();
    assert_eq!(check_sheet(&bytes), Err(11));
    bytes.push(0x20);
    assert_eq!(check_sheet(&bytes), Err(10));
}

#[test]
fn a_sheet_of_8_million_pairs_is_refused() {
    for leaf in [Variable(0), Ranged(0, 1, 9), Symbol(1)] {
        let sheet = SheetTree { arity: 8, rules: vec![full(8, &leaf); 64] }.bytes();
        assert_eq!(check_sheet(&sheet), Err(11));
    }
}
