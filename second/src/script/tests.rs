use super::*;
use crate::coverage::coverage;
use crate::replay::replay;

fn script(seed: u64, calls: usize) -> String {
    let mut text = Vec::new();
    write(seed..=seed, calls, &mut text).unwrap();
    String::from_utf8(text).unwrap()
}

fn answers(script: &str) -> Vec<u8> {
    let mut out = Vec::new();
    replay(script.as_bytes(), &mut out).unwrap();
    out
}

#[test]
fn writes_as_many_calls_as_asked_for() {
    for calls in [0, 1, 10, 777] {
        let text = script(5, calls);
        let lines = answers(&text)
            .iter()
            .filter(|&&octet| octet == b'\n')
            .count();
        assert_eq!(lines, calls);
        assert_eq!(text, script(5, calls));
    }
    assert_ne!(script(5, 100), script(6, 100));
}

#[test]
fn reaches_every_answer_in_a_few_seeds() {
    let all: Vec<u8> = (0..12)
        .flat_map(|seed| answers(&script(seed, 4000)))
        .collect();
    let mut out = Vec::new();
    coverage(&mut all.as_slice(), &mut out).unwrap();
    let text = String::from_utf8(out).unwrap();
    assert!(!text.contains("never"), "{text}");
    assert!(!text.contains("no answer"), "{text}");
    for state in ["sending", "waiting", "ending", "closing"] {
        let refusal = format!("\nrefused 19 {state}\n").into_bytes();
        let is_it = |window: &[u8]| window == refusal;
        assert!(all.windows(refusal.len()).any(is_it), "{state}");
    }
}
