//! The listing program against the reference's listing: the same lines on the shared vectors, on
//! refusals, on inputs that are cut, and on random pieces.

use std::fs::{self, File};
use std::io::Write;
use std::path::{Path, PathBuf};
use std::process::{Command, Stdio};
use voltunnis_tests::bytes::from_hex;
use voltunnis_tests::generate::known;
use voltunnis_tests::generate::pieces::piece;
use voltunnis_tests::generate::random::Random;
use voltunnis_tests::generate::sheets::sheet;
use voltunnis_tests::generate::stock::Stock;
use voltunnis_tests::generate::trees::{piece_bytes, Pattern, SheetTree, Term};
use voltunnis_tests::programs::program;
use voltunnis_tests::reference::listing::listing;
use voltunnis_tests::vectors;

const EXAMPLE: &str = "10 02 02 24 00 24 00 21 00 01 21 00 02";

/// An empty folder for one test.
fn folder(name: &str) -> PathBuf {
    let folder = Path::new(env!("CARGO_TARGET_TMPDIR")).join(name);
    let _ = fs::remove_dir_all(&folder);
    fs::create_dir_all(&folder).expect("a folder");
    folder
}

/// What the program prints in this folder, its standard input a file.
fn run(folder: &Path, pieces: &[u8]) -> String {
    let input = folder.join("pieces");
    fs::write(&input, pieces).expect("a file");
    let output = Command::new(program("listing"))
        .current_dir(folder)
        .stdin(File::open(&input).expect("a file"))
        .output()
        .expect("the program starts");
    assert!(output.status.success(), "{}", output.status);
    String::from_utf8(output.stdout).expect("text")
}

/// Runs the program and compares it with the reference; gives the lines.
#[track_caller]
fn lines(folder: &Path, sheet: &[u8], pieces: &[u8]) -> String {
    fs::write(folder.join("sheet.bin"), sheet).expect("a file");
    let lines = run(folder, pieces);
    assert!(lines == listing(sheet, pieces), "not the reference's lines: {lines}");
    lines
}

#[test]
fn the_vectors_are_listed_as_is_said() {
    let folder = folder("vectors");
    for vector in vectors::all() {
        let pieces: Vec<u8> = vector.pieces.iter().flat_map(|said| said.piece.clone()).collect();
        let lines = lines(&folder, &vector.sheet, &pieces);
        let said = vector.pieces.iter().map(|said| &said.line);
        assert!(lines.lines().eq([&vector.sheet_line].into_iter().chain(said)), "{}", vector.name);
    }
}

#[test]
fn a_missing_or_unreadable_sheet_is_an_empty_one() {
    let missing = folder("missing");
    assert_eq!(run(&missing, &[]), "refused 1\n");
    let unreadable = folder("unreadable");
    fs::create_dir(unreadable.join("sheet.bin")).expect("a folder");
    assert_eq!(run(&unreadable, &[]), "refused 1\n");
}

#[test]
fn refusals_end_the_run_and_leave_the_lines_before() {
    let folder = folder("refusals");
    let listed = |sheet: &str, pieces: &str| lines(&folder, &from_hex(sheet), &from_hex(pieces));
    assert_eq!(listed("10 02 00 20", "11 02 30 30"), "refused 10\n");
    assert_eq!(listed("10 02 00", ""), "sheet 2 0 0 1\n");
    let first = "sheet 2 2 3 6\n1 suspend 0 3 0000000000000007\n";
    for (rest, refusal) in [
        ("11", 12),
        ("11 09", 13),
        ("11 02 30", 14),
        ("11 02 35", 14),
        ("11 02 33 00 01 05", 16),
        ("11 01 30", 20),
        ("00", 12),
        ("11 02 34 00 02 00 01 ff", 32),
    ] {
        let pieces = format!("11 02 30 30 {rest}");
        assert_eq!(listed(EXAMPLE, &pieces), format!("{first}refused {refusal}\n"));
    }
    assert_eq!(lines(&folder, &known::nodes_1025(), &[]), "refused 18\n");
    assert_eq!(lines(&folder, &known::nodes_1024(), &[]), "sheet 8 11 12 1024\n");
    assert_eq!(lines(&folder, &known::nested_8(8), &[]), "sheet 8 8 8 53\n");
    assert_eq!(lines(&folder, &known::nested_8(16), &[]), "refused 19\n");
    assert_eq!(lines(&folder, &known::coins(32), &[]), "refused 18\n");
}

#[test]
fn coins_with_spans_are_listed() {
    let folder = folder("spans");
    let coin = |diameter, weight| piece_bytes(&[Term::Symbol(3), diameter, Term::Number(9 + 4), weight]);
    // Rule 4 takes a diameter of 120 to 210 and a weight of 75 to 115.
    let pieces = [
        coin(Term::Span(120, 210), Term::Span(80, 90)),
        coin(Term::Span(119, 210), Term::Span(80, 90)),
        coin(Term::Unknown, Term::Span(115, 116)),
        coin(Term::Span(120, 119), Term::Unknown),
    ];
    let listed = "sheet 4 8 4 80\n\
                  1 commit 4 2 0000000000000000\n\
                  2 execute 4 2 0000000000000002\n\
                  3 execute 4 3 000000000000000a\n\
                  refused 32\n";
    assert_eq!(lines(&folder, &known::coins(8), &pieces.concat()), listed);
}

#[test]
fn series_are_listed() {
    let folder = folder("series");
    let piece =
        |ids: [u16; 3], last: Term| piece_bytes(&[ids.map(Term::Symbol).to_vec(), vec![last]].concat());
    // Rule 17 takes 320 to 345, to 360, to 375 and to 390, rule 18 each by 20 more.
    let pieces = [
        piece([342, 345, 350], Term::Symbol(330)),
        piece([342, 345, 350], Term::Unknown),
        piece([345, 360, 375], Term::Symbol(391)),
        piece([339, 345, 350], Term::Unknown),
        piece([339, 345, 350], Term::Number(330)),
    ];
    let listed = "sheet 4 32 4 191\n\
                  1 commit 17 4 0000000000000000\n\
                  2 suspend 0 4 0000000000000008\n\
                  3 commit 18 4 0000000000000000\n\
                  4 execute 17 1 0000000000000008\n\
                  5 fail 0 1 0000000000000000\n";
    assert_eq!(lines(&folder, &known::series_4(32), &pieces.concat()), listed);
}

#[test]
fn pieces_of_machines_without_a_coil_are_listed() {
    let folder = folder("never");
    let pieces = from_hex("11 02 30 30 11 02 35 30 11 02 35 35 11 02 33 00 01 01 35 30 11 02 31 00 01 35");
    let said = "sheet 2 2 3 6\n\
                1 suspend 0 3 0000000000000007\n\
                2 fail 0 1 0000000000000000\n\
                3 fail 0 1 0000000000000000\n\
                4 fail 0 1 0000000000000000\n\
                5 fail 0 2 0000000000000000\n";
    assert_eq!(lines(&folder, &from_hex(EXAMPLE), &pieces), said);
    // (X, X) and (_, 2..3): the pair is asked beside the unknown.
    let sheet = from_hex("10 02 02 24 00 24 00 20 22 00 02 00 03");
    let said = "sheet 2 2 2 5\n1 execute 2 2 0000000000000001\nrefused 14\n";
    assert_eq!(lines(&folder, &sheet, &from_hex("11 02 35 30 11 02 35 37")), said);
}

#[test]
fn numbers_on_gauges_are_listed() {
    let folder = folder("gauges");
    // (X, X) and (_, 2..3 on gauge 1): 180 on two gauges is two numbers, and a span is on gauge 0.
    let sheet = from_hex("10 02 02 24 00 24 00 20 27 01 00 02 00 03");
    let pieces = [
        "11 02 36 01 00 02 36 01 00 02",
        "11 02 36 02 00 b4 36 03 00 b4",
        "11 02 32 00 b4 36 00 00 b4",
        "11 02 30 36 01 00 03",
        "11 02 30 34 00 02 00 03",
        "11 02 32 00 02 36 01 00 02",
        "11 02 36 01 00",
    ];
    let said = "sheet 2 2 2 5\n\
                1 suspend 0 2 0000000000000000\n\
                2 fail 0 1 0000000000000000\n\
                3 commit 1 1 0000000000000000\n\
                4 suspend 0 2 0000000000000002\n\
                5 execute 1 1 0000000000000002\n\
                6 commit 2 2 0000000000000000\n\
                refused 14\n";
    assert_eq!(lines(&folder, &sheet, &from_hex(&pieces.concat())), said);
}

#[test]
fn sheets_of_64_rules_are_listed() {
    let folder = folder("many");
    let pieces = "11 01 30 11 01 32 00 01 11 01 34 00 00 00 01 11 01 34 00 02 00 03";
    assert_eq!(
        lines(&folder, &known::nested_1(63), &from_hex(pieces)),
        "sheet 1 63 1 4\n\
         1 suspend 0 1 0000000000000001\n\
         2 commit 1 1 0000000000000000\n\
         3 execute 1 1 0000000000000001\n\
         4 suspend 0 1 0000000000000001\n"
    );
    let on_gauges = "11 01 36 03 00 04 11 01 36 03 00 08 11 01 32 00 01 11 01 36 04 00 04";
    assert_eq!(
        lines(&folder, &known::gauges_1(64), &from_hex(on_gauges)),
        "sheet 1 64 1 7\n\
         1 commit 4 1 0000000000000000\n\
         2 suspend 0 1 0000000000000000\n\
         3 commit 1 1 0000000000000000\n\
         4 fail 0 1 0000000000000000\n"
    );
    // Of 64 nested ranges a switch has 8,385 cases of 8 bytes, more than the listing's buffer.
    assert_eq!(lines(&folder, &known::nested_1(64), &[]), "refused 19\n");
    assert_eq!(lines(&folder, &known::nested_8(64), &[]), "refused 19\n");
    assert_eq!(lines(&folder, &known::coins(64), &[]), "refused 18\n");
    assert_eq!(lines(&folder, &from_hex(&format!("10 01 40 {}", "20".repeat(64))), &[]), "sheet 1 64 0 1\n");
    assert_eq!(lines(&folder, &from_hex(&format!("10 01 41 {}", "20".repeat(65))), &[]), "refused 3\n");
}

#[test]
fn inputs_are_cut_after_65536_bytes() {
    let folder = folder("cut");
    let sheet = from_hex(EXAMPLE);
    let whole = lines(&folder, &sheet, &from_hex("11 02 30 30").repeat(16_400));
    assert_eq!(whole.lines().count(), 1 + 16_384);
    let header = lines(&folder, &from_hex("10 01 00"), &from_hex("11 01 30").repeat(30_000));
    assert!(header.ends_with("\n21845 fail 0 0 0000000000000000\nrefused 12\n"));
    let term = lines(&folder, &sheet, &from_hex("11 02 30 31 00 01").repeat(30_000));
    assert!(term.ends_with("\n10922 execute 1 2 0000000000000004\nrefused 14\n"));
    // A sheet that is refused by 11 as a whole, and by 4 where it is cut.
    fn full(depth: usize) -> Pattern {
        match depth {
            4 => Pattern::Ranged(0, 1, 9),
            _ => Pattern::Compound(1, vec![full(depth + 1); 4]),
        }
    }
    let long = SheetTree { arity: 8, rules: vec![vec![full(1); 8]; 32] }.bytes();
    assert_eq!(lines(&folder, &long, &[]), "refused 4\n");
}

#[test]
fn a_piece_may_take_64_edges() {
    fn tree(depth: usize) -> Pattern {
        match depth {
            4 => Pattern::Anything,
            _ => Pattern::Compound(1, vec![tree(depth + 1); 4]),
        }
    }
    fn open(depth: usize) -> Term {
        match depth {
            4 => Term::Unknown,
            _ => Term::Compound(1, vec![open(depth + 1); 4]),
        }
    }
    let rule = vec![tree(1), tree(1), tree(1), Pattern::Symbol(1)];
    let sheet = SheetTree { arity: 4, rules: vec![rule; 2] }.bytes();
    let piece = piece_bytes(&[open(1), open(1), open(1), Term::Unknown]);
    let lines = lines(&folder("edges"), &sheet, &piece);
    assert!(lines.ends_with("\n1 suspend 0 64 8000000000000000\n"), "{lines}");
}

#[test]
fn pieces_may_come_in_parts() {
    let folder = folder("parts");
    let (sheet, pieces) = (from_hex(EXAMPLE), from_hex("11 02 30 31 00 01").repeat(12_000));
    fs::write(folder.join("sheet.bin"), &sheet).expect("a file");
    let mut child = Command::new(program("listing"))
        .current_dir(&folder)
        .stdin(Stdio::piped())
        .stdout(Stdio::piped())
        .spawn()
        .expect("the program starts");
    let mut input = child.stdin.take().expect("its standard input");
    let feed = {
        let pieces = pieces.clone();
        // The program stops reading after 65,536 bytes, so the last parts may find no reader.
        std::thread::spawn(move || pieces.chunks(1_001).all(|part| input.write_all(part).is_ok()))
    };
    let output = child.wait_with_output().expect("the program ends");
    feed.join().expect("the thread ends");
    assert!(output.stdout == listing(&sheet, &pieces).into_bytes(), "not the reference's lines");
}

#[test]
fn random_sheets_and_pieces_are_listed_alike() {
    let folder = folder("random");
    let mut random = Random::new(0x6c69_7374);
    let mut answers = 0;
    for _ in 0..150 {
        let tree = sheet(&mut random);
        let count = random.between(1, 30);
        let pieces: Vec<u8> =
            (0..count).flat_map(|_| piece_bytes(&piece(&mut random, &tree, Stock::FULL))).collect();
        answers += lines(&folder, &tree.bytes(), &pieces).lines().count();
    }
    assert!(answers >= 500, "{answers} lines");
}
