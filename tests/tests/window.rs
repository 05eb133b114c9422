//! Windows: after every feed the counts are those of a recount, a refused answer changes no cell, and
//! on memory that holds anything every cell is what the definition says.

use voltunnis_tests::bytes::from_hex;
use voltunnis_tests::cells;
use voltunnis_tests::generate::random::Random;
use voltunnis_tests::reference::window::{Window as Recount, LAST};
use voltunnis_tests::window::{commits, feed, fresh, words, Window, CELLS};

/// The vectors of request 12.
const VECTORS: &str = include_str!("../vectors/window.txt");

/// A window with cells around it that no call may change.
#[repr(C)]
struct Lent {
    before: [u16; 16],
    window: Window,
    after: [u16; 16],
}

impl Lent {
    fn new(window: Window) -> Box<Self> {
        Box::new(Lent { before: [0xabcd; 16], window, after: [0xef01; 16] })
    }

    fn is_watched(&self) -> bool {
        self.before == [0xabcd; 16] && self.after == [0xef01; 16]
    }
}

/// An answer that is taken.
fn taken(random: &mut Random) -> (u8, u8) {
    let word = random.between(1, 4) as u8;
    let rule = if word <= 2 { random.between(1, 64) as u8 } else { 0 };
    (word, rule)
}

/// An answer at random, near the limits of what is taken.
fn near(random: &mut Random) -> (u8, u8) {
    (random.between(0, 5) as u8, random.pick(&[0, 1, 2, 63, 64, 65, 128, 255]))
}

/// An answer: refused now and then, mostly a commit or of any word.
fn any(random: &mut Random, refused: usize) -> (u8, u8) {
    match random.below(100) {
        roll if roll < refused => near(random),
        roll if roll % 2 == 0 => (1, random.between(1, 4) as u8),
        _ => taken(random),
    }
}

/// All that a window says is what the recount says.
fn assert_same(window: &Window, recount: &Recount, fed: usize) {
    let (said, counted) = (words(window), recount.words());
    assert_eq!(said, counted, "the words after {fed} answers");
    assert_eq!(said.sum(), recount.len(), "the sum after {fed} answers");
    for (rule, count) in (0..=255).zip(recount.commits()) {
        assert_eq!(commits(window, rule), count, "the commits of rule {rule} after {fed} answers");
    }
}

/// Feeds so many answers to a fresh window, and compares after each.
fn run(random: &mut Random, length: usize, refused: usize) -> (Box<Lent>, Recount) {
    let mut lent = Lent::new([0; CELLS]);
    let mut recount = Recount::default();
    assert_same(&lent.window, &recount, 0);
    for fed in 1..=length {
        let (word, rule) = any(random, refused);
        assert_eq!(feed(&mut lent.window, word, rule), recount.feed(word, rule), "word {word} rule {rule}");
        assert_same(&lent.window, &recount, fed);
    }
    assert!(lent.is_watched(), "a cell outside the window changed");
    (lent, recount)
}

#[test]
fn the_counts_are_those_of_a_recount() {
    let mut random = Random::new(0x7761_746e);
    for round in 0..60 {
        let length = random.between(0, 5000);
        run(&mut random, length, [0, 5, 50][round % 3]);
    }
}

#[test]
fn the_counts_are_right_where_the_ring_goes_round() {
    let mut random = Random::new(0x726f_756e);
    for length in [0, 1, 998, 999, 1000, 1001, 1999, 2000, 2001, 3000] {
        let (lent, recount) = run(&mut random, length, 0);
        assert_eq!(recount.len(), length.min(LAST));
        assert_eq!(words(&lent.window).sum(), length.min(LAST));
    }
}

#[test]
fn refused_answers_between_count_as_never_fed() {
    let mut random = Random::new(0x7265_6675);
    for length in [999, 1000, 1001, 2000] {
        let (mut plain, mut mixed) = ([0; CELLS], [0; CELLS]);
        for _ in 0..length {
            let (word, rule) = taken(&mut random);
            for _ in 0..random.below(3) {
                let (word, rule) = random.pick(&[
                    (0, 0),
                    (1, 0),
                    (1, 65),
                    (2, 0),
                    (2, 65),
                    (3, 1),
                    (4, 64),
                    (5, 1),
                    (255, 0),
                ]);
                assert_eq!(feed(&mut mixed, word, rule), Err(36));
            }
            assert_eq!(feed(&mut mixed, word, rule), Ok(()));
            assert_eq!(feed(&mut plain, word, rule), Ok(()));
            assert!(plain == mixed, "the cells differ");
        }
        assert_eq!(words(&mixed).sum(), length.min(LAST));
    }
}

#[test]
fn every_word_and_rule_is_taken_or_refused() {
    let mut random = Random::new(0x3336);
    let (start, _) = run(&mut random, 1500, 5);
    let mut count = 0;
    for (word, rule) in (0..=255).flat_map(|word| (0..=255).map(move |rule| (word, rule))) {
        let mut window = start.window;
        let result = feed(&mut window, word, rule);
        assert_eq!(result, Recount::default().feed(word, rule), "word {word} rule {rule}");
        assert_eq!(
            result.is_err(),
            window == start.window,
            "a refused answer changes no cell, a taken one does"
        );
        count += usize::from(result.is_ok());
    }
    assert_eq!(count, 64 + 64 + 1 + 1);
}

/// Cells of any content: of a window in use, at random, or at the limits of what the steps test.
fn content(random: &mut Random) -> Window {
    let limits = [0, 1, 2, 998, 999, 1000, 1001, 65534, 65535, 256, 257, 320, 321, 512, 576, 577, 768, 1024];
    match random.below(3) {
        0 => std::array::from_fn(|_| random.word() as u16),
        1 => std::array::from_fn(|_| random.pick(&limits)),
        _ => {
            let mut window = [0; CELLS];
            (0..random.below(2500)).for_each(|_| {
                let (word, rule) = taken(random);
                feed(&mut window, word, rule).expect("an answer");
            });
            for _ in 0..random.below(4) {
                window[random.pick(&[0, 1, 2, 3, 4, 5, 6, 69, 70, 71, 1069])] = random.pick(&limits);
            }
            window
        }
    }
}

#[test]
fn every_cell_is_what_the_definition_says_on_any_content() {
    let mut random = Random::new(0x616e_7968);
    for _ in 0..400 {
        let start = content(&mut random);
        let (mut lent, mut expected) = (Lent::new(start), start);
        for _ in 0..random.between(1, 60) {
            let (word, rule) = any(&mut random, 20);
            assert_eq!(feed(&mut lent.window, word, rule), cells::feed(&mut expected, word, rule));
            assert!(lent.window == expected, "the cells differ after word {word} rule {rule}");
        }
        let said = words(&lent.window);
        assert_eq!([said.commit, said.execute, said.suspend, said.fail], expected[2..6]);
        for rule in 0..=255 {
            assert_eq!(commits(&lent.window, rule), cells::commits(&expected, rule), "rule {rule}");
        }
        fresh(&mut lent.window);
        assert_eq!(lent.window, [0; CELLS]);
        assert!(lent.is_watched(), "a cell outside the window changed");
    }
}

#[test]
fn the_shared_vectors_are_met() {
    for line in VECTORS.lines() {
        let [_, call, said] = line.split('|').collect::<Vec<_>>()[..] else { panic!("not a vector: {line}") };
        let answers = from_hex(call.strip_prefix("window ").expect("a window"));
        let mut window = [0; CELLS];
        let refused =
            answers.chunks(2).filter(|answer| feed(&mut window, answer[0], answer[1]) == Err(36)).count();
        let counts = words(&window);
        let mut says = format!("ok {} {} {} {}", counts.commit, counts.execute, counts.suspend, counts.fail);
        says += &format!(" refused {refused}");
        for rule in (0..=255).filter(|rule| commits(&window, *rule) != 0) {
            says += &format!(" {rule}:{}", commits(&window, rule));
        }
        assert_eq!(says, said);
    }
}
