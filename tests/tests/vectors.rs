//! The shared vectors: the sheet's size, and the word and rule of every answer, of library and
//! reference alike.

use voltunnis_tests::results::Plain;
use voltunnis_tests::{both, vectors};

#[test]
fn sheets_have_the_size_that_is_said() {
    let all = vectors::all();
    assert_eq!(all.len(), 10);
    for vector in &all {
        let (size, _) = vector.sheet_says();
        assert_eq!(both::check_sheet(&vector.sheet), Ok(size), "{}", vector.name);
    }
}

#[test]
fn plain_answers_are_those_that_are_said() {
    let mut answers = 0;
    for vector in vectors::all() {
        for (at, said) in vector.pieces.iter().enumerate() {
            let line = said.says();
            assert_eq!(line.number, at + 1, "{}", vector.name);
            let plain = Plain { word: line.word, rule: line.rule };
            assert_eq!(both::plain(&vector.sheet, &said.piece), Ok(plain), "{}: {}", vector.name, said.line);
            answers += 1;
        }
    }
    assert_eq!(answers, 49);
}
