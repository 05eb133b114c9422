//! What a number on a gauge says about tests, by each gauge and value; gauges in text and bytes; and mistakes over gauges
//! found by `vt conform`.

mod common;

use common::Folder;
use std::path::Path;
use voltunnis_generate::bytes::to_hex;
use voltunnis_workbench::notation::{
    parse_piece, parse_sheet, print_piece, print_sheet, Names, Piece, SheetText,
};
use voltunnis_workbench::sheet_tests::{RuleTests, Want};
use voltunnis_workbench::truth::{equal, wanted, without_gauges, Truth};

/// Gauges, the lowest, the highest and neighbours among them.
const GAUGES: [u8; 4] = [0, 1, 2, 255];

fn piece(text: &str) -> Piece {
    parse_piece(text, &Names::default()).expect("a piece")
}

/// Numbers as they are written, each with its gauge and its value.
fn numbers() -> Vec<(String, u8, u16)> {
    let on = |gauge: u8| [0, 1, 5, 65535].map(|value| (format!("{value}@{gauge}"), gauge, value));
    let plain = [0, 1, 5, 65535].map(|value| (value.to_string(), 0, value));
    GAUGES.into_iter().flat_map(on).chain(plain).collect()
}

#[test]
fn numbers_are_equal_only_on_the_same_gauge() {
    for (one, gauge, value) in numbers() {
        for (other, on, found) in numbers() {
            let same = match gauge == on && value == found {
                true => Truth::Holds,
                false => Truth::Contradicted,
            };
            let terms = piece(&format!("({one}, {other}, #1({one}, ?), #1({other}, ?))"));
            assert_eq!(equal(&terms, 0, 85), same, "{one} and {other}");
            // Inside compounds a difference shows beside an unknown.
            let inside = if same == Truth::Holds { Truth::NotKnown } else { same };
            assert_eq!(equal(&terms, 170, 255), inside, "#1({one}, ?) and #1({other}, ?)");
            let values = if value == found { Truth::Holds } else { Truth::Contradicted };
            assert_eq!(equal(&without_gauges(&terms), 0, 85), values, "{value} and {found}");
        }
    }
}

#[test]
fn a_span_differs_from_every_number_on_another_gauge() {
    for (low, high) in [(0, 65535), (5, 5), (1, 9)] {
        for (number, gauge, value) in numbers() {
            let terms = piece(&format!("({low}..{high}?, {number})"));
            let said = match (gauge == 0 && low <= value && value <= high, low == high) {
                (false, _) => Truth::Contradicted,
                (true, true) => Truth::Holds,
                (true, false) => Truth::NotKnown,
            };
            assert_eq!(
                [equal(&terms, 0, 85), equal(&terms, 85, 0)],
                [said; 2],
                "{low}..{high}? and {number}"
            );
        }
    }
}

#[test]
fn a_range_is_tested_on_its_gauge() {
    for (number, on, value) in numbers() {
        for gauge in GAUGES {
            let holds = gauge == on && (1..=5).contains(&value);
            let said = if holds { Truth::Holds } else { Truth::Contradicted };
            let terms = piece(&format!("({number}, ?, 1..5?, 5..6?, #5)"));
            let want = Want::Numbers(gauge, 1, 5);
            assert_eq!(wanted(&terms, 0, want), said, "{number} in 1..5@{gauge}");
            assert_eq!(wanted(&terms, 85, want), Truth::NotKnown);
            // Spans are on gauge 0, and a symbol on none.
            let zero = |truth| if gauge == 0 { truth } else { Truth::Contradicted };
            assert_eq!(wanted(&terms, 170, want), zero(Truth::Holds), "1..5? in 1..5@{gauge}");
            assert_eq!(wanted(&terms, 255, want), zero(Truth::NotKnown), "5..6? in 1..5@{gauge}");
            assert_eq!(wanted(&terms, 340, want), Truth::Contradicted);
        }
    }
}

#[test]
fn wants_name_their_gauge() {
    let text = "sheet 6\ngauge roller = 7\n1: (5..9, 5..9@roller, 5..9@0, 5, 5@7, X:5..9)\n";
    let SheetText { sheet, names } = parse_sheet(text).expect("a sheet");
    let wants = RuleTests::of(&sheet.rules[0]).wants;
    let words: Vec<String> = wants.iter().map(|(_, want)| want.words(&names)).collect();
    assert_eq!(words, ["in 5..9", "in 5..9@roller", "in 5..9", "is 5", "is 5@roller", "in 5..9"]);
}

/// Ranges and numbers on each gauge, gauge 0 too, with low at most high and above it, which is refused.
#[test]
fn gauges_come_back_as_they_were() {
    let ends = [0, 1, 9, 10, 255, 256, 65534, 65535];
    for (gauge, low) in (0..=255).flat_map(|gauge| ends.map(|low| (gauge, low))) {
        for high in ends {
            let range = [&[0x27, gauge][..], &u16::to_be_bytes(low), &u16::to_be_bytes(high)].concat();
            let bytes = [&[0x10, 2, 1][..], &range, &[0x23, 0, 1, 2, 0x20], &range].concat();
            let text = match low == high {
                true => format!("{low}@{gauge}"),
                false => format!("{low}..{high}@{gauge}"),
            };
            let text = format!("sheet 2\n1: ({text}, #1(_, {text}))\n");
            assert_eq!(print_sheet(&bytes), Ok(text.clone()));
            assert_eq!(to_hex(&parse_sheet(&text).expect("a sheet").sheet.bytes()), to_hex(&bytes));
        }
        let number = [&[0x36, gauge][..], &u16::to_be_bytes(low)].concat();
        let bytes = [&[0x11, 3][..], &number, &[0x32, 0, 7, 0x33, 0, 1, 1], &number].concat();
        let text = format!("({low}@{gauge}, 7, #1({low}@{gauge}))");
        assert_eq!(print_piece(&bytes), Ok(text.clone()));
        assert_eq!(to_hex(&piece(&text).bytes()), to_hex(&bytes));
    }
    assert_eq!(to_hex(&piece("( 180 @ 3 )").bytes()), "1101360300b4");
}

/// What `vt conform` is left with of the mistake of another maker's program.
fn smallest(trap: &str, seed: &str) -> (String, String) {
    let folder = Folder::new(&format!("gauge-{trap}-{seed}"));
    let maker = Path::new(env!("CARGO_BIN_EXE_vt")).with_file_name("examples").join("maker");
    let program = format!("'{}' --wrong {trap}", maker.display());
    let ran = folder.run(&["conform", "--program", &program, "--seed", seed]);
    assert_eq!((ran.status, ran.stderr.as_str()), (1, ""), "{trap}: {}", ran.stdout);
    let call = ran.stdout.lines().nth(3).expect("the smallest call").to_string();
    let program = ran.stdout.lines().find_map(|line| line.strip_prefix("program  "));
    (call, program.expect("the program's words").to_string())
}

#[test]
fn mistakes_over_gauges_are_found() {
    // (0), (0..1@1): gauge 0 cut at 2, too, has three cases more, and so has gauge 1 cut at 1.
    let mingled = format!("build 1001022200000000270100000001 {}", "00".repeat(68));
    // (_), (0@1): the cases for one run, for two and for the other; no case of gauge 0.
    let [lean, ground] = [33, 41].map(|length| format!("build 10010220270100000000 {}", "00".repeat(length)));
    let short = |length: usize| format!("refused 19 {}", "00".repeat(length));
    let single = "ok 3 33 1201020003430000000200020001460100000000000146010001ffff0002414201".to_string();
    for seed in ["1", "2", "3", "4", "5"] {
        for (trap, call, said) in [
            ("blind", "plain 10020124002400 110232000036010000", "ok commit 1"),
            ("mingled", &mingled, &short(68)),
            ("lean", &lean, &single),
            ("ground", &ground, &short(41)),
            ("zero", "tidy 100101270000000000 0000000000000000", "refused 31 0000000000000000"),
        ] {
            assert_eq!(smallest(trap, seed), (call.into(), said.into()), "{trap}, seed {seed}");
        }
    }
}
