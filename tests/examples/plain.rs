//! Asks for the plain answers of document 01's example: `cargo run --example plain`.

fn main() {
    // f(X, X) and f(1, 2), in symbols.
    let sheet = [0x10, 2, 2, 0x24, 0, 0x24, 0, 0x21, 0, 1, 0x21, 0, 2];
    let pieces: [&[u8]; 4] = [
        &[0x11, 2, 0x31, 0, 1, 0x31, 0, 2],
        &[0x11, 2, 0x30, 0x31, 0, 1],
        &[0x11, 2, 0x30, 0x30],
        &[0x11, 2, 0x31, 0, 3, 0x31, 0, 4],
    ];
    for piece in pieces {
        match voltunnis::plain(&sheet, piece) {
            Ok(answer) => println!("{} {}", answer.word, answer.rule),
            Err(refusal) => println!("{refusal}"),
        }
    }
}
