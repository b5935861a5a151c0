//! What is expected of made cases comes from the model: it must print what the stored cases have.

use answer_cases::printed::printed;
use answer_cases::{made, stored};

#[test]
fn the_model_prints_what_the_stored_cases_have() {
    let cases = stored::read(include_str!("../cases.txt")).expect("they are in form");
    assert!(cases.len() > 100);
    for case in cases {
        let printed = printed(&case.network, &case.labels, &case.input);
        assert!(printed == case.expected, "{}", case.note);
    }
}

#[test]
fn made_cases_have_accepted_and_refused_files() {
    let cases = made::cases(1);
    let refused = cases
        .iter()
        .filter(|case| case.expected.starts_with(b"refused"));
    assert!((50..cases.len() - 50).contains(&refused.count()));
}
