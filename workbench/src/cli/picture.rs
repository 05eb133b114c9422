//! Pictures, made by Graphviz.

use super::args::{Args, JSON};
use super::out::{reason, Out};
use super::stop::Stop;
use crate::dot::Picture;
use crate::json::Json;
use std::io::{ErrorKind, Write};
use std::path::Path;
use std::process::{Command, Stdio};

/// What pictures can be written as, by the ending of the file.
const FORMATS: [&str; 4] = ["svg", "png", "pdf", "dot"];

/// From so many edges on a picture takes its time.
const MANY: usize = 5_000;

/// Writes a picture to a file, in the format that its ending says.
pub fn write(picture: &Picture, path: &str, args: &Args, out: &Out) -> Result<(), Stop> {
    let ending = Path::new(path).extension().map(|ending| ending.to_string_lossy().to_lowercase());
    let Some(format) = FORMATS.into_iter().find(|format| ending.as_deref() == Some(*format)) else {
        return Err(args.wrong(&format!("{path}: expected a file that ends in .svg, .png, .pdf or .dot")));
    };
    let (nodes, edges) = (picture.graph.nodes.len(), picture.edge_count());
    if edges > MANY && format != "dot" {
        out.complain(&format!("vt: {nodes} nodes and {edges} edges: Graphviz may take some minutes\n"));
    }
    let dot = picture.dot();
    match format {
        "dot" => out.file(path, dot.as_bytes())?,
        _ => match drawn(&dot, format) {
            Ok(bytes) => out.file(path, &bytes)?,
            Err(Undrawn::Missing) => return Err(instead(path, &dot, out)),
            Err(Undrawn::Failed(why)) => {
                return Err(Stop::wrong(format!("Graphviz could not draw it: {why}")))
            }
        },
    }
    if args.has(JSON) {
        let counts = [("nodes", Json::count(nodes)), ("edges", Json::count(edges))];
        out.json(&Json::Object([("file", Json::text(path))].into_iter().chain(counts).collect()))?;
    }
    Ok(())
}

/// Writes the text for Graphviz where Graphviz is missing, and says so.
fn instead(path: &str, dot: &str, out: &Out) -> Stop {
    let other = Path::new(path).with_extension("dot").to_string_lossy().into_owned();
    match out.file(&other, dot.as_bytes()) {
        Ok(()) => Stop::wrong(format!(
            "Graphviz is not installed, so {other} was written instead of {path}\n\
             Install it (Debian: apt-get install graphviz) and run: dot -T{} {other} -o {path}",
            Path::new(path).extension().unwrap_or_default().to_string_lossy()
        )),
        Err(stop) => stop,
    }
}

/// Why a picture was not drawn.
enum Undrawn {
    /// There is no Graphviz.
    Missing,
    Failed(String),
}

/// The picture that Graphviz makes.
fn drawn(dot: &str, format: &str) -> Result<Vec<u8>, Undrawn> {
    let failed = |error: std::io::Error| Undrawn::Failed(reason(&error));
    let mut child = Command::new("dot")
        .arg(format!("-T{format}"))
        .stdin(Stdio::piped())
        .stdout(Stdio::piped())
        .stderr(Stdio::piped())
        .spawn()
        .map_err(
            |error| if error.kind() == ErrorKind::NotFound { Undrawn::Missing } else { failed(error) },
        )?;
    let input = child.stdin.take();
    let text = dot.to_string();
    // Fed from a thread of its own, so that neither side waits for the other.
    let feed = std::thread::spawn(move || input.map(|mut input| input.write_all(text.as_bytes())));
    let output = child.wait_with_output().map_err(failed)?;
    // A picture that was not fed whole is told by the status.
    let _ = feed.join();
    match output.status.success() && !output.stdout.is_empty() {
        true => Ok(output.stdout),
        false => Err(Undrawn::Failed(String::from_utf8_lossy(&output.stderr).trim().to_string())),
    }
}
