use super::*;

#[test]
fn counts_answers_and_names_those_that_lack() {
    let answers = "ok\nwrote 00\nrefused 13\nrefused 12 32\npassed over\nok\n";
    let mut out = Vec::new();
    coverage(&mut answers.as_bytes(), &mut out).unwrap();
    let text = String::from_utf8(out).unwrap();
    let expected = "ok: 2\npassed over: 1\nwrote: 1\nrefused 12: 1\nrefused 13: 1\nnever: again\n";
    assert!(text.starts_with(expected), "{text}");
    assert!(text.ends_with("never: refused 19\nnever: refused 21\n"));
    assert!(!text.contains("refused 20"));
}
