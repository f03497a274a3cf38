//! The wrapper on sheets whose answers document 01 prints or fixes.

use lochkave::{Question, Refusal, ask_into, decide, decide_into};

const PRINTED: &[u8] =
    b"K,2,0,0,0,1,0,2\nR,0,2,1,0,1,0\nL,0,1,0,0,2,1\nG,0,5,0,0,6,1\nS,0,3\nW\nO\nA\nM\nC\nC\n";
const ANSWER: &[u8] = b"k,1,2\nP,1,0\nR,0,2,1,0,1,0\nL,0,2,1,0,1,0\nG,0,6,1,0,5,0\nS,3,0\nJ\nC,0,2,1,0,1,0\nC,0,6,1,0,5,0\n";

fn refusal(number: u32, line: u32) -> Refusal {
    Refusal { number, line }
}

#[test]
fn the_printed_sheet() {
    assert_eq!(decide(PRINTED).unwrap(), ANSWER);
}

#[test]
fn room_for_the_answer_and_one_byte_less() {
    let mut out = vec![126; ANSWER.len() + 3];
    assert_eq!(decide_into(PRINTED, &mut out), Ok(ANSWER.len()));
    assert_eq!(&out[..ANSWER.len()], ANSWER);
    assert_eq!(&out[ANSWER.len()..], [126; 3]);
    let mut out = vec![126; ANSWER.len() - 1];
    assert_eq!(decide_into(PRINTED, &mut out), Err(refusal(12, 0)));
    assert!(out.iter().all(|b| *b == 126));
}

#[test]
fn empty_slices() {
    assert_eq!(decide_into(&[], &mut []), Err(refusal(1, 1)));
    assert_eq!(decide(&[]), Err(refusal(1, 1)));
}

#[test]
fn a_question_for_another_kind_of_sheet() {
    let mut out = [126; 1000];
    let question = Question::ReorderJoinKeysToInputs;
    assert_eq!(ask_into(question, PRINTED, &mut out), Err(refusal(1, 1)));
    assert!(out.iter().all(|b| *b == 126));
    let question = Question::EnsureDistribution;
    assert_eq!(ask_into(question, PRINTED, &mut out), Err(refusal(1, 1)));
    assert!(out.iter().all(|b| *b == 126));
    let question = Question::AdjustInputKeysOrdering;
    assert_eq!(ask_into(question, PRINTED, &mut out), Ok(ANSWER.len()));
}

#[test]
fn a_sheet_written_again() {
    let mut out = [0; 1000];
    assert_eq!(
        ask_into(Question::Rewrite, PRINTED, &mut out),
        Ok(PRINTED.len())
    );
    assert_eq!(&out[..PRINTED.len()], PRINTED);
}

#[test]
fn a_refusal_says_why() {
    let missing = decide(b"K,6,0,0,0,0,0,0\nR\n").unwrap_err();
    assert_eq!(missing, refusal(1, 3));
    assert_eq!(
        missing.to_string(),
        "refusal 1 on line 3: wrong, missing or extra line"
    );
    assert_eq!(
        refusal(12, 0).to_string(),
        "refusal 12: the answer is longer than the output lent"
    );
}

#[test]
fn every_number_has_a_meaning() {
    let meanings: std::collections::HashSet<_> = (1..=12)
        .map(|number| refusal(number, 0).meaning())
        .collect();
    assert_eq!(meanings.len(), 12);
    assert_eq!(refusal(13, 0).meaning(), "unknown refusal");
}

/// A root without children is handed back; a library that decides no D sheets calls the first line wrong.
#[test]
fn a_leaf() {
    let leaf = b"D,4,0,0,8192,0,9,0,0,0\nT,0,1,0,,0,1,0,0\nB,0,0,0,0\nY,0\n";
    assert_eq!(
        decide(leaf),
        Ok(b"d,0,0,0,0\nt,1,0,1,0,,0,0,0,0\n".to_vec())
    );
}
