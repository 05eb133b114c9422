//! The C examples, compiled against the header and linked with the library, and the Rust example print what they should.

use std::path::Path;
use std::process::{Command, Output};

fn run(command: &mut Command) -> Output {
    let output = command.output().expect("the command starts");
    assert!(output.status.success(), "{command:?}: {}", String::from_utf8_lossy(&output.stderr));
    output
}

/// What the example of this name prints.
fn printed(name: &str) -> String {
    let package = Path::new(env!("CARGO_MANIFEST_DIR"));
    let program = Path::new(env!("CARGO_TARGET_TMPDIR")).join(name);
    run(Command::new("cc")
        .args(["-std=c11", "-Wall", "-Wextra", "-Werror"])
        .arg(package.join("examples/c").join(name).with_extension("c"))
        .arg(package.join("../target/staticlib/libvoltunnis.a"))
        .arg("-o")
        .arg(&program));
    String::from_utf8(run(&mut Command::new(program)).stdout).expect("text")
}

#[test]
fn the_plain_answers_of_the_example_are_printed() {
    assert_eq!(printed("plain"), "commit 2\nexecute 1\nsuspend 0\nfail 0\n");
}

#[test]
fn the_counts_of_a_window_are_printed() {
    assert_eq!(printed("window"), "commit 2 execute 0 suspend 1 fail 1\nrule 1 1 rule 65 0 refused 3\n");
}

#[test]
fn the_examples_pieces_are_walked_two_at_a_time() {
    let first = "commit 2 3 0000000000000000\nexecute 1 2 0000000000000004\n2 results, 14 bytes\n";
    let second = "suspend 0 3 0000000000000007\nfail 0 1 0000000000000000\n2 results, 12 bytes\n";
    assert_eq!(printed("walk_all"), [first, second, "0 results, 0 bytes\n"].concat());
}

#[test]
fn the_example_is_built_in_the_order_of_a_track_drawing() {
    let said = "1360 bytes, place 85 first\ntable 0\n6 nodes, place 85 asked first\nrefused 37 and 38\n";
    assert_eq!(printed("order"), said);
}

#[test]
fn the_rust_example_prints_the_four_answers() {
    let program = Path::new(env!("CARGO_TARGET_TMPDIR")).join("../debug/examples/plain");
    let output = run(&mut Command::new(program));
    assert_eq!(output.stdout, b"commit 2\nexecute 1\nsuspend 0\nfail 0\n");
}
