//! What a file of definitions, laws or code says of itself: what it imports, which words a part of it uses, and
//! how many of its lines define something.

use std::collections::HashMap;

/// The crates of the kit.
const KIT: [&str; 6] = ["std", "check", "libc", "io", "os", "bytes"];

/// What a file imports: for each word, the file that it comes from; and for each alias of a whole module its file.
pub struct Imports {
    words: HashMap<String, String>,
    aliases: HashMap<String, String>,
    files: Vec<String>,
}

impl Imports {
    /// The imports of a file's text.
    pub fn of(text: &str) -> Imports {
        let mut imports = Imports { words: HashMap::new(), aliases: HashMap::new(), files: Vec::new() };
        for line in text.lines() {
            imports.take(line);
        }
        imports
    }

    fn take(&mut self, line: &str) {
        let line = line.trim_end_matches(';');
        let line = line.strip_prefix("ghost ").or(line.strip_prefix("pub ")).unwrap_or(line);
        let Some(rest) = line.strip_prefix("use ") else { return };
        if let Some((module, names)) = rest.split_once(".{") {
            let Some(file) = module_file(module) else { return };
            for name in names.trim_end_matches('}').split(',') {
                let local = name.rsplit(" as ").next().unwrap_or(name).trim();
                self.words.insert(local.to_string(), file.clone());
            }
            self.files.push(file);
        } else if let Some((module, alias)) = rest.split_once(" as ") {
            let Some(file) = module_file(module) else { return };
            self.aliases.insert(alias.trim().to_string(), file.clone());
            self.files.push(file);
        }
    }

    /// All files of the repository that are imported.
    pub fn files(&self) -> &[String] {
        &self.files
    }

    /// The file that a word comes from, if it is imported from the repository.
    pub fn file_of(&self, word: &str) -> Option<&String> {
        match word.split_once('.') {
            Some((alias, name)) if !alias.is_empty() && !name.is_empty() => self.aliases.get(alias),
            _ => self.words.get(word),
        }
    }
}

/// The file of a module of the repository, as `Rattle.walk.specs.Walking`. None for the kit's modules and for the types that a
/// program declares.
fn module_file(module: &str) -> Option<String> {
    let rest = module.strip_prefix("Rattle.")?;
    let (name, path) = rest.split_once('.')?;
    let parts: Vec<&str> = path.split('.').collect();
    if parts.len() < 2 || parts[1] == "declared" || KIT.contains(&name) {
        return None;
    }
    Some(format!("crates/{name}/{}.antt", parts.join("/")))
}

/// The words of a text, comments left out.
pub fn words(text: &str) -> Vec<&str> {
    text.lines()
        .map(|line| line.split("--").next().unwrap_or(""))
        .flat_map(|line| line.split(|c: char| c.is_whitespace() || "()[]{},;⌜⌝".contains(c)))
        .filter(|word| !word.is_empty())
        .collect()
}

/// How many lines are neither blank nor a comment nor an import.
pub fn defining_lines(text: &str) -> usize {
    let counts = |line: &&str| {
        let line = line.trim();
        !line.is_empty()
            && !line.starts_with("--")
            && !line.starts_with("use ")
            && !line.starts_with("pub use ")
    };
    text.lines().filter(counts).count()
}

/// The names that a file declares as definitions, not as laws: abbreviations, types and records.
pub fn definitions(text: &str) -> Vec<&str> {
    let mut names = Vec::new();
    for line in text.lines() {
        let mut words = line.split_whitespace().peekable();
        let mut defines = false;
        while let Some(&word) = words.peek() {
            match word {
                "pub" => {}
                "abbrev" | "unfoldable" | "data" | "record" => defines = true,
                _ => break,
            }
            words.next();
        }
        if let (true, Some(name)) = (defines, words.next()) {
            names.push(name);
        }
    }
    names
}

/// The statement of a law: its signature, with the parameters of the modules around it.
pub fn statement(text: &str, name: &str) -> Option<String> {
    let lines: Vec<&str> = text.lines().collect();
    let is_head = |line: &str| {
        let line = line.trim_start();
        let line = line.strip_prefix("pub ").unwrap_or(line);
        line.strip_prefix(name).is_some_and(|rest| rest.is_empty() || rest.starts_with(" :") || rest == " ")
    };
    let at = lines.iter().position(|line| is_head(line))?;
    let indent = indent_of(lines[at]);
    let ends = |line: &&&str| {
        let word = line.trim_start();
        line.trim().is_empty()
            || (indent_of(line) == indent && (word.starts_with(name) || word.starts_with("unfolding")))
    };
    let length = lines[at + 1..].iter().position(|line| ends(&line)).unwrap_or(lines.len() - at - 1);
    let mut parts = module_heads(&lines[..at], indent);
    parts.extend_from_slice(&lines[at..=at + length]);
    Some(parts.join("\n"))
}

/// The heads of the modules in which a line so far indented stands.
fn module_heads<'a>(before: &[&'a str], mut indent: usize) -> Vec<&'a str> {
    let mut heads = Vec::new();
    for (i, line) in before.iter().enumerate().rev() {
        if line.trim_start().starts_with("module ") && indent_of(line) < indent {
            indent = indent_of(line);
            let length = before[i..].iter().position(|l| l.trim_end().ends_with("where")).unwrap_or(0);
            heads.extend_from_slice(&before[i..=i + length]);
        }
    }
    heads
}

fn indent_of(line: &str) -> usize {
    line.len() - line.trim_start().len()
}

#[cfg(test)]
mod tests {
    use super::*;

    const LAW: &str = "use Rattle.walk.specs.Walking.{walk_reply, Found as Seen}\nuse Rattle.decision.specs.Key as key\n\n\
        abbrev pub Local : ℕ\nLocal = 0\n\nmodule _ (a : Seen) where\n  -- A law.\n  pub right\n      : (b : key.Key) → walk_reply a\n\
        \x20 right b = refl\n";

    #[test]
    fn imports_name_files() {
        let imports = Imports::of(LAW);
        assert_eq!(imports.file_of("Seen").unwrap(), "crates/walk/specs/Walking.antt");
        assert_eq!(imports.file_of("key.Key").unwrap(), "crates/decision/specs/Key.antt");
        assert!(imports.file_of("Found").is_none());
    }

    #[test]
    fn a_statement_has_its_module_and_no_proof() {
        let said = statement(LAW, "right").unwrap();
        assert!(said.contains("module _ (a : Seen) where") && said.contains("walk_reply a"));
        assert!(!said.contains("refl"));
    }

    #[test]
    fn definitions_are_not_laws() {
        assert_eq!(definitions(LAW), ["Local"]);
        assert_eq!(defining_lines(LAW), 6);
    }
}
