//! `vt order`: the reading order of a track drawing.

use super::args::{Args, BYTES, JSON, OUTPUT};
use super::order::OrderInput;
use super::out::Out;
use super::source::Source;
use super::stop::Stop;
use super::tidy::write;
use super::Command;

pub const COMMAND: Command = Command {
    name: "order",
    usage: "TRACK",
    summary: "write the reading order of a track drawing",
    about: "The drawing says where on the track each place is read. Step by step, of the places not yet put down\n\
            that are arguments or whose parent is down, the one with the smallest position comes next, on equal\n\
            positions the lower place. So a part that is mounted before the whole comes after it.\n\n\
            Prints the order as text. With -o it goes to a file, as a table if the file's name ends in .bin.\n\
            Where another command takes --order it takes the drawing too.",
    options: &[OUTPUT, BYTES, JSON],
    examples: &[
        ("vt order drawing.track", "show in which order places are asked"),
        ("vt order drawing.track -o order.bin", "write the table, for another maker's compiler"),
        ("vt order positions.bin -o track.order", "the order of a list of positions, as text"),
    ],
    run,
};

fn run(args: &Args, out: &Out) -> Result<(), Stop> {
    let [path] = &args.rest[..] else { return Err(args.wrong("expected one track drawing")) };
    let OrderInput { order, bytes } = OrderInput::along(&Source::load(path, args)?)?;
    write(args, out, "order", &bytes, order.print())
}
