//! "Did you mean": the known word next to one that is not known.

/// A hint to end a message with, or nothing.
pub fn did_you_mean(word: &str, known: &[String]) -> String {
    let word: Vec<char> = word.chars().take(30).collect();
    let near = known.iter().map(|name| (distance(&word, name), name)).min();
    match near {
        // A third of the word may differ, or two characters of a short one.
        Some((distance, name)) if distance <= 2.max(name.len() / 3) && distance < word.len() => {
            format!("; did you mean `{name}`?")
        }
        _ => String::new(),
    }
}

/// How many characters to put in, take out or change to make one word of the other.
fn distance(word: &[char], name: &str) -> usize {
    let mut row: Vec<usize> = (0..=word.len()).collect();
    for (above, other) in name.chars().enumerate() {
        let mut diagonal = row[0];
        row[0] = above + 1;
        for (at, character) in word.iter().enumerate() {
            let changed = diagonal + usize::from(*character != other);
            diagonal = row[at + 1];
            row[at + 1] = changed.min(row[at] + 1).min(diagonal + 1);
        }
    }
    row[word.len()]
}

#[cfg(test)]
mod tests {
    use super::*;

    #[test]
    fn near_words_are_hinted_at() {
        let known = ["write", "check", "read", "look-up"].map(String::from);
        assert_eq!(did_you_mean("chekc", &known), "; did you mean `check`?");
        assert_eq!(did_you_mean("lookup", &known), "; did you mean `look-up`?");
        assert_eq!(did_you_mean("frobnicate", &known), "");
        assert_eq!(did_you_mean("x", &known), "");
        assert_eq!(did_you_mean("", &known), "");
    }
}
