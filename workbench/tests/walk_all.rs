//! Many pieces for one check: the listing over more pieces than one run takes, and mistakes that `vt conform`
//! finds.

mod common;

use common::Folder;
use std::path::Path;

/// The example's pieces with their answers in the listing.
const PIECES: [(&str, &str); 4] = [
    ("(one, two)", "commit 2 3 0000000000000000"),
    ("(?, one)", "execute 1 2 0000000000000004"),
    ("(?, ?)", "suspend 0 3 0000000000000007"),
    ("(three, four)", "fail 0 1 0000000000000000"),
];

#[test]
fn the_listing_goes_over_any_number_of_pieces() {
    let folder = Folder::new("many");
    for count in [255, 256, 257, 700] {
        let many: Vec<_> = PIECES.into_iter().cycle().take(count).collect();
        let pieces: String = many.iter().map(|(piece, _)| format!("{piece}\n")).collect();
        let lines = many.iter().enumerate().map(|(at, (_, answer))| format!("{} {answer}\n", at + 1));
        let lines = format!("sheet 2 2 3 6\n{}", lines.collect::<String>());
        let ran = folder.run_with(&["listing", "example.sheet"], pieces.as_bytes());
        assert_eq!((ran.stdout, ran.status), (lines.clone(), 0));
        // A piece of another arity ends it, whatever follows.
        let ran = folder.run_with(&["listing", "example.sheet"], (pieces + "(?)\n(?, ?)\n").as_bytes());
        assert_eq!((ran.stdout, ran.status), (lines + "refused 20\n", 1));
        assert_eq!(ran.stderr, format!("piece {}: refused 20: Are the two arities equal?\n", count + 1));
    }
}

#[test]
fn mistakes_over_many_pieces_come_down_to_two() {
    let folder = Folder::new("many-wrong");
    let maker = Path::new(env!("CARGO_BIN_EXE_vt")).with_file_name("examples").join("maker");
    for (trap, pieces, said) in [
        ("late", "11013000", "ok 2 3 0c00000000000000000000000000000000040000000000000000000000000000"),
        ("eager", "00", "ok 1 1 0c000000000000000000000000000000"),
    ] {
        let program = format!("'{}' --wrong {trap}", maker.display());
        let ran = folder.run(&["conform", "--program", &program]);
        assert_eq!((ran.status, ran.stderr.as_str()), (1, ""), "{trap}");
        let call = format!("\nwalk_all 100100 120100000140 {pieces} 0000");
        assert!(ran.stdout.contains(&call), "{}", ran.stdout);
        assert!(ran.stdout.contains(&format!("\nprogram  {said}\n")), "{}", ran.stdout);
    }
}
