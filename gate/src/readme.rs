//! What the README says of theorems and of the book: names in backquotes and links to files, section by section.

/// A theorem that the README names, and the file that it links.
pub struct Theorem {
    pub name: String,
    pub file: String,
}

/// The lines of a section, by its heading.
fn section<'a>(readme: &'a str, heading: &str) -> Vec<&'a str> {
    let mut lines = readme.lines().skip_while(|line| *line != format!("## {heading}"));
    lines.next();
    lines.take_while(|line| !line.starts_with("## ")).collect()
}

/// The files that a section links.
pub fn links(readme: &str, heading: &str) -> Vec<String> {
    let text = section(readme, heading).join(" ");
    text.split("](").skip(1).filter_map(|rest| rest.split(')').next()).map(str::to_string).collect()
}

/// The theorems that the tables of a section name, each with the next file linked after it in its row, or, where its row links no
/// further one, the last one linked before.
pub fn theorems(readme: &str, heading: &str) -> Vec<Theorem> {
    let mut found = Vec::new();
    let mut last = String::new();
    for row in section(readme, heading).iter().filter(|line| line.starts_with('|')) {
        let column = row.trim_end_matches('|').rsplit('|').next().unwrap_or("");
        let mut waiting: Vec<String> = Vec::new();
        for (i, part) in column.split('`').enumerate() {
            if i % 2 == 1 {
                waiting.push(part.to_string());
            } else if let Some(file) = part.split("](").nth(1).and_then(|rest| rest.split(')').next()) {
                last = file.to_string();
                found.extend(waiting.drain(..).map(|name| Theorem { name, file: last.clone() }));
            }
        }
        found.extend(waiting.drain(..).map(|name| Theorem { name, file: last.clone() }));
    }
    found
}

#[cfg(test)]
mod tests {
    use super::*;

    const README: &str = "## Promises\n\n| a | `one`, `two`, [F](f.antt); `three`, [G](g.antt) |\n| b | `four`, the same file |\n\n## Next\n[H](h.antt)\n";

    #[test]
    fn theorems_have_files() {
        let found: Vec<(String, String)> =
            theorems(README, "Promises").into_iter().map(|t| (t.name, t.file)).collect();
        let want = [("one", "f.antt"), ("two", "f.antt"), ("three", "g.antt"), ("four", "g.antt")];
        assert_eq!(found, want.map(|(n, f)| (n.to_string(), f.to_string())));
    }

    #[test]
    fn links_are_those_of_the_section() {
        assert_eq!(links(README, "Next"), ["h.antt"]);
        assert_eq!(links(README, "Promises"), ["f.antt", "g.antt"]);
    }
}
