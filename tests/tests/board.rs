//! What the library asks of a control board, as the README's section "On a board" says it: the size of its code, what it needs from
//! outside, and the most stack that each call takes. The stack is measured by painting it before a call and looking, after the
//! call, how far down the paint was changed.

use std::fs::read_to_string;
use std::hint::black_box;
use std::path::{Path, PathBuf};
use std::process::Command;
use std::ptr::{read_volatile, write_volatile};
use std::thread;
use voltunnis_tests::generate::known;
use voltunnis_tests::generate::orders::{reversed, table};
use voltunnis_tests::generate::tracks::{list, numbered};
use voltunnis_tests::generate::trees::{piece_bytes, Term};
use voltunnis_tests::reference::own_graph;
use voltunnis_tests::reference::sheet::Sheet;

const PAINT: u8 = 0xa5;
/// The stack that is painted, and how far below the caller's frame the paint begins: the painter's own frame lies between.
const DEEPEST: usize = 256 * 1024;
const NEAREST: usize = 512;
/// No graph of the inputs has more bytes.
const LARGEST: usize = 11_000_000;

fn repository() -> PathBuf {
    Path::new(env!("CARGO_MANIFEST_DIR")).join("..")
}

fn output(program: &str, argument: &str) -> String {
    let archive = repository().join("target/staticlib/libvoltunnis.a");
    let output = Command::new(program).arg(argument).arg(archive).output().expect("the command starts");
    assert!(output.status.success(), "{program}: {}", String::from_utf8_lossy(&output.stderr));
    String::from_utf8(output.stdout).expect("text")
}

/// The number in the row of the README's section that begins with this cell.
fn stated(cell: &str) -> usize {
    let readme = read_to_string(repository().join("README.md")).expect("the README");
    let section =
        readme.split("## On a board").nth(1).expect("the section").split("\n## ").next().expect("its text");
    let row = section
        .lines()
        .find(|line| line.starts_with(&format!("| {cell} |")))
        .unwrap_or_else(|| panic!("a row {cell}"));
    row.split('|').nth(2).expect("a figure").trim().replace(',', "").parse().expect("a number")
}

/// The figure that is stated is no less than what was measured, and no more than a quarter and 512 bytes above it.
fn holds(cell: &str, measured: usize) {
    let stated = stated(cell);
    println!("{cell}: measured {measured}, stated {stated}");
    assert!(measured <= stated, "{cell}: {measured} bytes, and the README says {stated}");
    assert!(
        stated <= measured + measured / 4 + 512,
        "{cell}: only {measured} bytes, and the README says {stated}"
    );
}

#[inline(never)]
fn paint(top: usize) {
    for address in (top - DEEPEST..top - NEAREST).rev() {
        // SAFETY: the addresses lie in this thread's stack, below the frames in use; its size is set above DEEPEST.
        unsafe { write_volatile(address as *mut u8, PAINT) };
    }
}

#[inline(never)]
fn lowest_changed(top: usize) -> usize {
    // SAFETY: as above; each address was painted before.
    (top - DEEPEST..top - NEAREST)
        .find(|&a| unsafe { read_volatile(a as *const u8) } != PAINT)
        .unwrap_or(top - NEAREST)
}

/// The stack, in bytes, that a call takes below its caller's frame.
#[inline(never)]
fn stack_of(call: impl Fn()) -> usize {
    let here = 0u8;
    let top = black_box(&here) as *const u8 as usize;
    paint(top);
    call();
    top - lowest_changed(top)
}

/// The most stack that a call takes over all inputs.
fn most(call: impl Fn(&[u8], &[u8], &[u8]) + Send + Sync + 'static) -> usize {
    most_of(inputs(), call)
}

/// The most stack that a call takes over these inputs, on a thread of its own.
fn most_of(inputs: Vec<Input>, call: impl Fn(&[u8], &[u8], &[u8]) + Send + Sync + 'static) -> usize {
    let measure = move || inputs.iter().map(|(s, g, p)| stack_of(|| call(s, g, p))).max().unwrap_or(0);
    thread::Builder::new().stack_size(4 * DEEPEST).spawn(measure).expect("a thread").join().expect("a figure")
}

/// A term or pattern that has 4 arguments at each depth but the last: by the kinds of a compound and of what stands deepest.
fn full(compound: u8, deepest: &[u8], depth: usize, to: &mut Vec<u8>) {
    if depth == 4 {
        return to.extend_from_slice(deepest);
    }
    to.extend_from_slice(&[compound, 0, 1, 4]);
    (0..4).for_each(|_| full(compound, deepest, depth + 1, to));
}

/// 64 rules of 64 places each: three arguments of full depth, and a symbol.
fn most_places() -> Vec<u8> {
    let mut rule = Vec::new();
    (0..3).for_each(|_| full(0x23, &[0x20], 1, &mut rule));
    rule.extend([0x21, 0, 1]);
    [vec![0x10, 4, 64], rule.repeat(64)].concat()
}

/// A sheet, its graph (empty where none is built) and a piece.
type Input = (Vec<u8>, Vec<u8>, Vec<u8>);

/// How many words the cuts of a sheet take: for each tested place 1, and 4 for each rule.
fn words_of_cuts(sheet: &[u8]) -> usize {
    let read = Sheet::read(sheet).expect("a sheet");
    (1 + 4 * read.rules.len()) * read.tests.places.len()
}

/// Sheets, their graphs and pieces: of document 01, large ones, with spans, on gauges, and ones of full depth, also with
/// readings that will never come deepest, beside an unknown.
fn inputs() -> Vec<Input> {
    let mut deep_sheet = vec![0x10, 2, 2, 0x24, 0, 0x24, 0];
    (0..2).for_each(|_| full(0x23, &[0x20], 1, &mut deep_sheet));
    let mut deep_piece = vec![0x11, 2];
    (0..2).for_each(|_| full(0x33, &[0x31, 0, 1], 1, &mut deep_piece));
    let mut never_piece = vec![0x11, 2, 0x30];
    full(0x33, &[0x35], 1, &mut never_piece);
    let pieces = [deep_piece, never_piece];
    let sheets = [known::example(), deep_sheet];
    let mut inputs: Vec<(Vec<u8>, Vec<u8>)> =
        sheets.iter().flat_map(|sheet| pieces.iter().map(|piece| (sheet.clone(), piece.clone()))).collect();
    inputs.extend(known::example_pieces().into_iter().map(|piece| (known::example(), piece)));
    for sheet in [
        most_places(),
        known::coins(64),
        known::nested_8(64),
        known::zeros_and_ones(32),
        known::nodes_1024(),
        known::nodes_1025(),
    ] {
        let unknowns = [vec![0x11, sheet[1]], vec![0x30; sheet[1] as usize]].concat();
        inputs.push((sheet, unknowns));
    }
    inputs.push((known::nested_1(64), piece_bytes(&[Term::Span(20, 990)])));
    inputs.push((known::nested_8(64), piece_bytes(&vec![Term::Span(20, 990); 8])));
    inputs.push((known::gauges_8(64), piece_bytes(&vec![Term::Gauged(2, 500); 8])));
    let with_graph = |(sheet, piece): (Vec<u8>, Vec<u8>)| {
        let graph = own_graph(&sheet).unwrap_or_default();
        (sheet, graph, piece)
    };
    inputs.into_iter().map(with_graph).collect()
}

#[test]
fn the_stack_of_each_call_is_what_the_readme_says() {
    holds(
        "`vt_check_sheet`",
        most(|s, _, _| {
            let _ = black_box(voltunnis::check_sheet(s));
        }),
    );
    holds(
        "`vt_check_piece`",
        most(|_, _, p| {
            let _ = black_box(voltunnis::check_piece(p));
        }),
    );
    holds(
        "`vt_check_graph`",
        most(|s, g, _| {
            let _ = black_box(voltunnis::check_graph(s, g));
        }),
    );
    let order = table(&reversed());
    holds(
        "`vt_check_order`",
        most(move |_, _, _| {
            let _ = black_box(voltunnis::check_order(&order));
        }),
    );
    holds(
        "`vt_plain`",
        most(|s, _, p| {
            let _ = black_box(voltunnis::plain(s, p));
        }),
    );
    holds(
        "`vt_walk`, `vt_wait`",
        most(|s, g, p| {
            let _ = black_box(voltunnis::walk(s, g, p));
        }),
    );
}

#[test]
fn the_stack_of_each_writer_is_what_the_readme_says() {
    let buffers = || vec![0; LARGEST];
    let lent = std::sync::Mutex::new(buffers());
    holds(
        "`vt_build`",
        most(move |s, _, _| {
            let _ = black_box(voltunnis::build(s, &mut lent.lock().expect("one thread")));
        }),
    );
    let lent = std::sync::Mutex::new(buffers());
    let order = table(&reversed());
    holds(
        "`vt_build_ordered`",
        most(move |s, _, _| {
            let _ = black_box(voltunnis::build_ordered(s, &order, &mut lent.lock().expect("one thread")));
        }),
    );
    let lent = std::sync::Mutex::new(buffers());
    let positions = list(&numbered(&reversed()));
    holds(
        "`vt_order`",
        most(move |_, _, _| {
            let _ = black_box(voltunnis::order(&positions, &mut lent.lock().expect("one thread")));
        }),
    );
    let lent = std::sync::Mutex::new(buffers());
    holds(
        "`vt_tidy`",
        most(move |s, _, _| {
            let _ = black_box(voltunnis::tidy(s, &mut lent.lock().expect("one thread")));
        }),
    );
    let lent = std::sync::Mutex::new(buffers());
    holds(
        "`vt_walk_all`",
        most(move |s, g, p| {
            let _ = black_box(voltunnis::walk_all(s, g, p, &mut lent.lock().expect("one thread")));
        }),
    );
    let lent = std::sync::Mutex::new(buffers());
    holds(
        "`vt_rewrite`",
        most(move |s, g, _| {
            let _ = black_box(voltunnis::rewrite(s, g, &mut lent.lock().expect("one thread")));
        }),
    );
}

#[test]
fn a_build_takes_the_room_that_its_sheet_needs() {
    for (row, words) in [("`vt_build` in 320 words", 320), ("`vt_build` in 8,256 words", 8_256)] {
        let fitting = inputs().into_iter().filter(|(sheet, _, _)| words_of_cuts(sheet) <= words).collect();
        let lent = std::sync::Mutex::new(vec![0; LARGEST]);
        holds(
            row,
            most_of(fitting, move |s, _, _| {
                let _ = black_box(voltunnis::build(s, &mut lent.lock().expect("one thread")));
            }),
        );
    }
}

#[test]
fn the_code_is_as_large_as_the_readme_says() {
    let table = output("size", "-t");
    let totals: Vec<usize> = table
        .lines()
        .last()
        .expect("totals")
        .split_whitespace()
        .map_while(|word| word.parse().ok())
        .collect();
    holds("code", totals[0]);
    assert_eq!(&totals[1..3], [0, 0], "no static data");
}

#[test]
fn nothing_is_needed_from_outside_but_memset() {
    let table = output("nm", "-u");
    let needed: Vec<&str> = table.lines().filter_map(|line| line.trim().strip_prefix("U ")).collect();
    assert_eq!(needed, ["memset"]);
}
