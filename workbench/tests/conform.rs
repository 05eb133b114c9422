//! `vt conform` and `vt vectors` as a user runs them, with the example of another maker's program and its
//! wrong twins, which `cargo test` builds beside `vt`.

use std::fs;
use std::path::{Path, PathBuf};
use std::process::{Command, Output};
use voltunnis_generate::damage::damaged;
use voltunnis_generate::random::Random;
use voltunnis_workbench::vectors;

const VT: &str = env!("CARGO_BIN_EXE_vt");

/// The example of another maker's program.
fn maker() -> String {
    let program = Path::new(VT).with_file_name("examples").join("maker");
    assert!(program.exists(), "the example is missing: cargo build --examples");
    program.display().to_string()
}

/// What `vt` says on standard output and standard error, and its exit status.
fn vt(words: &[&str]) -> (String, String, i32) {
    let Output { status, stdout, stderr } =
        Command::new(VT).args(words).env("RUST_BACKTRACE", "0").output().expect("vt starts");
    let text = |bytes| String::from_utf8(bytes).expect("text");
    (text(stdout), text(stderr), status.code().expect("a status"))
}

/// What `vt conform` says about the maker's program with these words after its name.
fn conform(words: &str, more: &[&str]) -> (String, String, i32) {
    let program = format!("'{}' {words}", maker());
    vt(&[&["conform", "--program", &program], more].concat())
}

/// A file of this test's own.
fn file(name: &str) -> PathBuf {
    let folder = Path::new(env!("CARGO_TARGET_TMPDIR")).join("conform");
    fs::create_dir_all(&folder).expect("a folder");
    folder.join(name)
}

/// The fenced block of the document that begins with this word.
fn block(word: &str) -> String {
    let text = fs::read_to_string(Path::new(env!("CARGO_MANIFEST_DIR")).join("../docs/CONFORMANCE.md"));
    let text = text.expect("docs/CONFORMANCE.md");
    let (_, rest) = text.split_once(&format!("```{word}\n")).expect("a block");
    rest.split_once("```").expect("the block's end").0.into()
}

#[test]
fn the_right_maker_passes_and_all_is_covered() {
    for seed in ["1", "2"] {
        let (said, problems, status) = conform("", &["--seed", seed, "--count", "10000"]);
        assert_eq!((problems.as_str(), status), ("", 0), "{said}");
        assert!(said.starts_with(&format!("10000 calls of seed {seed}: all equal.\n")), "{said}");
        assert!(!said.contains("never met"), "{said}");
        for number in (1..=32).chain([37, 38]) {
            assert!(said.contains(&format!(" {number}: ")), "refusal {number}: {said}");
        }
    }
}

#[test]
fn a_short_run_says_what_it_never_met() {
    let (said, _, status) = conform("", &["--count", "3"]);
    assert_eq!(status, 0);
    let lines: Vec<&str> = said.lines().collect();
    assert_eq!(
        lines[..2],
        ["3 calls of seed 1: all equal.", "calls       check_sheet 1, check_graph 1, build 1"]
    );
    let never =
        "never met   calls check_piece, check_order, plain, tidy, order, build_ordered, rewrite, walk,";
    let at = lines.iter().position(|line| *line == never).expect("a line of calls");
    assert_eq!(lines[at + 1].trim_start(), "walk_all", "{said}");
    assert!(lines.contains(&"never met   answers commit, execute, suspend, fail"), "{said}");
    assert!(lines.iter().any(|line| line.starts_with("never met   refusals 1, 2, 3, ")), "{said}");
}

#[test]
fn the_chain_is_found_and_shown_as_documented() {
    let (said, problems, status) = conform("--wrong chain", &[]);
    assert_eq!((problems.as_str(), status), ("", 1));
    assert_eq!(said, block("chain"));
}

/// What is left of a difference, and what the program says to it.
fn smallest(said: &str) -> (&str, &str) {
    let call = said.lines().nth(3).expect("the smallest call");
    let program = said.lines().find_map(|line| line.strip_prefix("program  "));
    (call, program.expect("the program's words"))
}

#[test]
fn every_mistake_comes_down_to_a_few_bytes_whatever_the_seed() {
    for seed in ["1", "2", "3"] {
        for (trap, call, words) in [
            ("chain", "check_sheet 100301240024002400", "ok 3 1 2"),
            ("hasty", "walk 100101210000 12010100014201 110130", "ok commit 1 0 0000000000000000"),
            ("drop", "plain 100101210000 110130", "ok fail 0"),
            ("touch", "build - 00", "refused 1 12"),
            ("number", "tidy 1001012400 00000000", "refused 31 00000000"),
            ("panic", "check_sheet 1001012200010000", "ended: exit status: 101"),
            ("coarse", "plain 100101210000 11013400000000", "ok execute 1"),
            ("single", "plain 1001012600000001 1101310001", "ok fail 0"),
            ("kept", "tidy 1001012600000000 000000000000", "refused 31 000000000000"),
            (
                "gaps",
                "build 10010220210000 000000000000000000000000000000000000000000000000",
                "refused 19 000000000000000000000000000000000000000000000000",
            ),
            (
                "first",
                "walk 100101210000 12010100024300000002000000004600000000010000460000010001000140 1101320001",
                "refused 26",
            ),
        ] {
            let (said, _, status) = conform(&format!("--wrong {trap}"), &["--seed", seed]);
            assert_eq!((smallest(&said), status), ((call, words), 1), "{trap}: {said}");
        }
    }
}

#[test]
fn a_byte_after_the_graph_is_seen() {
    let (said, _, status) = conform("--wrong spill", &[]);
    assert_eq!((smallest(&said).0, status), ("build 100100 00254a6f94b9de", 1), "{said}");
    assert!(said.contains("\nThe buffers differ first at byte 6.\n"), "{said}");
    let (said, ..) = conform("--wrong touch", &[]);
    assert!(said.contains("\nThe buffers differ first at byte 0. A refusal changes no byte.\n"), "{said}");
}

#[test]
fn a_program_that_says_nothing_is_not_waited_for() {
    let (said, _, status) = conform("--wrong mute", &["--timeout", "0.05"]);
    assert_eq!((smallest(&said), status), (("check_sheet -", "nothing for 0.05 s"), 1), "{said}");
}

/// The calls that must come before the one that differs.
fn before(said: &str) -> Vec<&str> {
    let mut lines = said.lines().skip(1);
    assert_eq!(
        lines.next(),
        Some("Asked this call alone, the program says what the library says; not so after"),
        "{said}"
    );
    lines.take_while(|line| !line.is_empty()).collect()
}

#[test]
fn what_differs_only_after_other_calls_is_shown_with_the_fewest() {
    let (said, _, status) = conform("--wrong stale", &[]);
    assert_eq!((before(&said), status), (vec!["check_piece 1102310003310004"], 1), "{said}");
    assert!(said.contains("\nlibrary  ok 3\nprogram  ok 2\n"), "{said}");
    let (said, _, status) = conform("--wrong chatter", &[]);
    assert_eq!((before(&said).len(), status), (1, 1), "{said}");
}

#[test]
fn calls_that_a_program_does_not_know_are_counted_apart() {
    let (said, _, status) = conform("--wrong half", &["--count", "1000"]);
    assert_eq!(status, 0);
    let first = said.lines().next().expect("a line");
    assert!(first.ends_with(" more are unknown to the program."), "{said}");
    assert!(said.contains("\nunknown     check_graph "), "{said}");
    let (said, _, status) = vt(&["conform", "--program", "sed -u s/.*/unknown/", "--count", "50"]);
    assert_eq!((said.lines().next(), status), (Some("The program knows none of 50 calls."), 1));
}

#[test]
fn a_reply_that_is_none_is_shown_as_it_is() {
    let (said, _, status) = vt(&["conform", "--program", "cat"]);
    assert_eq!((smallest(&said), status), (("check_sheet -", "check_sheet -"), 1), "{said}");
    assert!(said.contains("\nThe program's line is no reply: "), "{said}");
    let replies = |reply: &str| vt(&["conform", "--program", &format!("sed -u 's/.*/{reply}/'")]).0;
    assert!(replies("ok 1").contains("\nThe program's line has other fields than arity, rules, tests.\n"));
    assert!(replies("ok 1 2 \u{1b}").contains("\nThe program says: arity 1, rules 2, tests \u{fffd}.\n"));
    assert!(replies("refused 99")
        .contains("\nThe program refuses by a question that the library does not have.\n"));
    let (said, _, status) = vt(&["conform", "--program", "true"]);
    assert_eq!((smallest(&said).1, status), ("ended: exit status: 0", 1), "{said}");
}

#[test]
fn programs_can_read_the_outcome() {
    let (said, _, status) = conform("--wrong hasty", &["--json"]);
    assert_eq!(status, 1);
    assert!(said.contains("\"equal\": false"), "{said}");
    assert!(said.contains("\"call\": \"walk 100101210000 12010100014201 110130\""), "{said}");
    let (said, _, status) = conform("", &["--json", "--count", "30"]);
    assert_eq!(status, 0);
    assert!(said.contains("\"equal\": true,\n  \"compared\": 30,\n  \"difference\": null"), "{said}");
}

#[test]
fn wrong_use_is_told() {
    let program = maker();
    for (words, message) in [
        (&["conform"][..], "expected --program COMMAND\nSee `vt conform --help`."),
        (&["conform", "--program", " "], "--program: no program is named\nSee `vt conform --help`."),
        (&["conform", "--program", "'x"], "--program: a quote ' is not closed\nSee `vt conform --help`."),
        (
            &["conform", "--program", "/no/such/program"],
            "/no/such/program: cannot be started: No such file or directory\nSee `vt conform --help`.",
        ),
        (
            &["conform", "--program", &program, "--timeout", "0"],
            "--timeout: expected seconds, more than 0\nSee `vt conform --help`.",
        ),
        (
            &["conform", "--program", &program, "--seed", "-1"],
            "--seed: expected a number, not `-1`\nSee `vt conform --help`.",
        ),
        (
            &["conform", "--program", &program, "more"],
            "unexpected `more`: the program goes after --program, in quotes\nSee `vt conform --help`.",
        ),
        (&["vectors"], "expected -o FILE, or --check FILE\nSee `vt vectors --help`."),
        (
            &["vectors", "-o", "a", "--check", "b"],
            "expected -o or --check, not both\nSee `vt vectors --help`.",
        ),
        (&["vectors", "more"], "unexpected `more`\nSee `vt vectors --help`."),
        (&["vectors", "--check", "/no/such/file"], "/no/such/file: No such file or directory"),
        (&["vectors", "-o", "/no/such/folder/file"], "/no/such/folder/file: No such file or directory"),
    ] {
        let (said, problems, status) = vt(words);
        assert_eq!((said.as_str(), problems, status), ("", format!("vt: {message}\n"), 2), "{words:?}");
    }
}

#[test]
fn vectors_are_the_calls_of_a_seed_and_are_checked() {
    let (first, path) = (file("seed-5.txt"), file("changed.txt"));
    let (first, path) = (first.to_str().expect("a path"), path.to_str().expect("a path"));
    assert_eq!(
        vt(&["vectors", "--seed", "5", "--count", "2000", "-o", first]),
        (String::new(), String::new(), 0)
    );
    assert_eq!(
        vt(&["vectors", "--check", first]),
        ("2000 calls equal, 0 different\n".into(), String::new(), 0)
    );
    let text = fs::read_to_string(first).expect("the file");
    assert!(text.starts_with(
        "# vt vectors --seed 5 --count 2000\ncheck_sheet 10020224002400210001210002\nok 2 2 3\n"
    ));
    assert_eq!(vt(&["vectors", "--seed", "5", "--count", "2000", "-o", "-"]).0, text);
    fs::write(path, text.replacen("ok 2 2 3", "ok 2 2 2", 1)).expect("a file");
    let said = format!(
        "{path}:2: other replies\n  file     ok 2 2 2\n  library  ok 2 2 3\n1999 calls equal, 1 different\n"
    );
    assert_eq!(vt(&["vectors", "--check", path]), (said, String::new(), 1));
}

#[test]
fn faults_of_a_vectors_file_are_told_with_their_line() {
    let path = file("faulty.txt");
    let path = path.to_str().expect("a path");
    for (text, message) in [
        ("# nothing\n\ncheck_piece -\n", "3: the reply to this call is missing"),
        ("check_piece 1\nrefused 12\n", "1: an odd number of hexadecimal digits"),
        ("check_piece 0x\nrefused 12\n", "1: 'x' is no hexadecimal digit"),
        ("check_piece 11 30\nrefused 12\n", "1: check_piece takes 1 arguments, here are 2"),
    ] {
        fs::write(path, text).expect("a file");
        assert_eq!(vt(&["vectors", "--check", path]), (String::new(), format!("vt: {path}:{message}\n"), 2));
    }
    fs::write(path, "overlay 10\nok 3\ncheck_piece -\nrefused 12\n").expect("a file");
    assert_eq!(vt(&["vectors", "--check", path]).0, "1 call equal, 0 different, 1 unknown\n");
    fs::write(path, [0xff, 0xfe, b'\n']).expect("a file");
    assert_eq!(vt(&["vectors", "--check", path]).2, 2);
}

#[test]
fn no_file_of_vectors_makes_the_check_panic() {
    let mut text = Vec::new();
    vectors::write(9, 100, &mut text).expect("a text");
    let mut random = Random::new(9);
    let mut ended = [0; 3];
    for _ in 0..1_000 {
        let damaged = damaged(&mut random, &text);
        ended[match vectors::check(&String::from_utf8_lossy(&damaged)) {
            Ok(checked) if checked.differ.is_empty() => 0,
            Ok(_) => 1,
            Err(_) => 2,
        }] += 1;
    }
    assert!(ended.iter().all(|count| *count > 5), "{ended:?}");
}

#[test]
fn the_documents_lines_are_the_librarys() {
    let text = block("vectors");
    let checked = vectors::check(&text).expect("calls and replies");
    assert_eq!((checked.equal, checked.differ), (text.lines().count() / 2, vec![]));
}
