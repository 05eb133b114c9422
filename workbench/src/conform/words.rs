//! A command line cut into words.

/// The words of a command line: parted by spaces, except between quotes of either sort.
///
/// ```
/// use voltunnis_workbench::conform::words;
///
/// assert_eq!(words("./maker --twin 'of chains'").unwrap(), ["./maker", "--twin", "of chains"]);
/// assert_eq!(words("./maker 'of").unwrap_err(), "a quote ' is not closed");
/// assert_eq!(words("  ").unwrap_err(), "no program is named");
/// ```
pub fn words(line: &str) -> Result<Vec<String>, String> {
    let mut words: Vec<String> = Vec::new();
    let (mut word, mut quote) = (None, None);
    for c in line.chars() {
        match quote {
            Some(open) if c == open => quote = None,
            None if c == '\'' || c == '"' => {
                quote = Some(c);
                word.get_or_insert_with(String::new);
            }
            None if c.is_whitespace() => words.extend(word.take()),
            _ => word.get_or_insert_with(String::new).push(c),
        }
    }
    words.extend(word);
    match quote {
        Some(open) => Err(format!("a quote {open} is not closed")),
        None if words.is_empty() => Err("no program is named".into()),
        None => Ok(words),
    }
}
