//! What a function's proof must show, by the names that the prover gives to its goals.

/// What does not hold where a goal is refused; none for a name that is no goal's.
pub fn meaning(goal: &str) -> Option<&'static str> {
    let parts: Vec<&str> = goal.split('-').collect();
    let first = parts.first().copied().unwrap_or_default();
    let has = |words: &[&str]| parts.iter().skip(1).any(|part| words.contains(part));
    let begins = |heads: &[&str]| heads.iter().any(|head| first.starts_with(head));
    if first == "returns" {
        Some("what it returns or leaves is not what its contract says")
    } else if first == "shape_of" {
        Some("a buffer's length is not kept")
    } else if begins(&["overflow_"]) {
        Some("a number may not fit its type")
    } else if ["bounds", "slice_bounds", "offset_bounds"].contains(&first) {
        Some("an index may lie outside")
    } else if has(&["requires"]) {
        Some("what a call requires does not hold")
    } else if has(&["init", "preserved"]) {
        Some("the loop's invariant does not hold")
    } else if has(&["smaller"]) {
        Some("the loop may not end")
    } else {
        None
    }
}

#[cfg(test)]
mod tests {
    use super::*;

    #[test]
    fn goals_by_their_names() {
        let returns = meaning("returns");
        assert!(returns.is_some());
        assert_eq!(meaning("returns-12"), returns);
        assert_eq!(meaning("returns-in-Stop"), returns);
        assert_eq!(meaning("byte_at-requires-2"), meaning("low-requires"));
        assert_ne!(meaning("loop-k-preserved"), meaning("loop-k-smaller"));
        assert_eq!(meaning("loop-k-preserved"), meaning("loop-k-init"));
        assert_eq!(meaning("slice_bounds-buffer-4"), meaning("bounds-t7"));
        assert_eq!(
            meaning("overflow_add-less"),
            meaning("overflow_cast-result")
        );
        assert_eq!(meaning("runs_on"), None);
    }
}
