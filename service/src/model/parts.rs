//! Long texts in parts. The database gets each part in a commit of its own, so no call waits for all of them.

/// How many bytes a part has at most.
pub const PART_BYTES: usize = 256 << 10;

/// The parts of a text, at least one. None is empty, unless the text is.
pub fn parts(text: &str) -> Vec<&str> {
    let (mut parts, mut rest) = (Vec::new(), text);
    while rest.len() > PART_BYTES {
        let at = (0..=PART_BYTES).rfind(|at| rest.is_char_boundary(*at)).unwrap_or(rest.len());
        let (part, after) = rest.split_at(at);
        parts.push(part);
        rest = after;
    }
    parts.push(rest);
    parts
}

#[cfg(test)]
mod tests {
    use super::*;

    #[test]
    fn parts_are_the_text() {
        let text = format!("{}{}", "ü".repeat(PART_BYTES), "x".repeat(PART_BYTES - 1));
        let found = parts(&text);
        assert!(found.len() == 3 && found.iter().all(|part| !part.is_empty() && part.len() <= PART_BYTES));
        assert_eq!(found.concat(), text);
        assert_eq!(parts("{}"), ["{}"]);
    }
}
