//! Which name a misspelt word was meant to be.

/// The name that is nearest to the word, if at most a third of its letters differ. Capital
/// letters are not told apart from small ones.
pub(crate) fn nearest<'n>(word: &str, names: impl IntoIterator<Item = &'n str>) -> Option<&'n str> {
    let word = word.to_lowercase();
    let near = names.into_iter().filter_map(|name| {
        let letters = word.len().max(name.len());
        let differ = difference(&word, &name.to_lowercase());
        (3 * differ <= letters).then_some((differ, name))
    });
    near.min_by_key(|&(differ, _)| differ).map(|(_, name)| name)
}

/// How many letters have to be put in, taken out or changed to get from one word to the other.
fn difference(a: &str, b: &str) -> usize {
    let b: Vec<char> = b.chars().collect();
    // For each beginning of `b`: how far the beginning of `a` so far is from it.
    let mut row: Vec<usize> = (0..=b.len()).collect();
    for (i, x) in a.chars().enumerate() {
        let mut diagonal = row[0];
        row[0] = i + 1;
        for (j, &y) in b.iter().enumerate() {
            let changed = diagonal + (x != y) as usize;
            diagonal = row[j + 1];
            row[j + 1] = changed.min(diagonal + 1).min(row[j] + 1);
        }
    }
    row[b.len()]
}

#[cfg(test)]
mod tests {
    use super::{difference, nearest};

    #[test]
    fn differences() {
        assert_eq!(difference("", "abc"), 3);
        assert_eq!(difference("abc", "abc"), 0);
        assert_eq!(difference("abc", "axc"), 1);
        assert_eq!(difference("kitten", "sitting"), 3);
    }

    #[test]
    fn nearest_names() {
        let names = ["Capture", "Create", "CreateFrom", "phi"];
        assert_eq!(nearest("Cpature", names), Some("Capture"));
        assert_eq!(nearest("create", names), Some("Create"));
        assert_eq!(nearest("Createfrom", names), Some("CreateFrom"));
        assert_eq!(nearest("pi", names), Some("phi"));
        assert_eq!(nearest("Render", names), None);
        assert_eq!(nearest("b", ["a", "c"]), None);
    }
}
