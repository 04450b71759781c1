//! The part of the document that this program writes.

/// The lines before and after it.
const BEGIN: &str = "<!-- oracle/run-differences writes from here -->\n";
const END: &str = "<!-- oracle/run-differences writes up to here -->\n";

/// The document with these tables in it.
pub fn with_tables(document: &str, tables: &str) -> Result<String, String> {
    let parts = document.split_once(BEGIN).and_then(|(before, rest)| Some((before, rest.split_once(END)?.1)));
    let (before, after) = parts.ok_or_else(|| format!("it hasn't the lines\n{BEGIN}and\n{END}"))?;
    Ok(format!("{before}{BEGIN}\n{tables}{END}{after}"))
}

/// Says where a text isn't the one that it should be.
pub fn check(text: &str, expected: &str) -> Result<(), String> {
    let mut lines = text.split('\n').zip(expected.split('\n')).enumerate();
    match lines.find(|(_, (line, other))| line != other) {
        None => Ok(()),
        Some((place, (line, other))) => {
            Err(format!("line {} is\n{line}\nand should be\n{other}\noracle/run-differences writes it anew", place + 1))
        }
    }
}
