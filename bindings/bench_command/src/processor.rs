//! Whether the processor has what the library is compiled for.

/// What x86-64-v2 has beyond the first x86-64, as far as a program can ask, each with whether it is here.
fn features() -> [(&'static str, bool); 6] {
    [
        ("SSE3", is_x86_feature_detected!("sse3")),
        ("SSSE3", is_x86_feature_detected!("ssse3")),
        ("SSE4.1", is_x86_feature_detected!("sse4.1")),
        ("SSE4.2", is_x86_feature_detected!("sse4.2")),
        ("POPCNT", is_x86_feature_detected!("popcnt")),
        ("CMPXCHG16B", is_x86_feature_detected!("cmpxchg16b")),
    ]
}

/// Says what this processor lacks, if it lacks anything.
pub fn lack() -> Option<String> {
    lack_of(&features())
}

fn lack_of(features: &[(&str, bool)]) -> Option<String> {
    let missing = features.iter().filter(|(_, here)| !here);
    let names: Vec<_> = missing.map(|(name, _)| *name).collect();
    (!names.is_empty()).then(|| {
        format!(
            "this processor is no x86-64-v2, for which the library is compiled: it has no {}",
            names.join(", ")
        )
    })
}

#[cfg(test)]
mod tests {
    use super::*;

    #[test]
    fn what_is_missing_is_named() {
        assert_eq!(lack(), None);
        let old =
            features().map(|(name, here)| (name, here && !["SSE4.2", "POPCNT"].contains(&name)));
        let lack = lack_of(&old).unwrap();
        assert!(lack.ends_with("it has no SSE4.2, POPCNT") && !lack.contains('\n'));
    }
}
