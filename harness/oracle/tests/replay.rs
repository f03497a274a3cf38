//! Cases in replay's form: the fixed list, and those derived by hand. The files give the answers that stand there to accepted sheets.

use sheets::{Case, OUTPUT_REQUIREMENTS};

/// Whether the files are asked about a case: a sheet that is accepted, isn't written again, and has no answers that 002 never has.
fn is_asked(case: &Case) -> bool {
    let excused = OUTPUT_REQUIREMENTS.contains(&case.name.as_str());
    oracle::is_accepted(&case.answer) && case.entry != b'w' && !excused
}

/// Asks the files about the cases. How many there were.
fn ask(cases: Vec<Case>) -> usize {
    let asked: Vec<Case> = cases.into_iter().filter(is_asked).collect();
    for case in &asked {
        assert_eq!(oracle::decide(&case.sheet), case.answer, "{}", case.name);
    }
    asked.len()
}

#[test]
fn the_fixed_list() {
    if !oracle::AVAILABLE {
        return eprintln!("NOT run: the three files are not at hand");
    }
    let asked = ask(sheets::cases("tests/oracle.stdin", "tests/oracle.stdout"));
    assert!(asked > 150, "{asked} sheets");
}

#[test]
fn cases_derived_by_hand() {
    if !oracle::AVAILABLE {
        return eprintln!("NOT run: the three files are not at hand");
    }
    let asked = ask(sheets::replay_cases());
    assert!(asked > 200, "{asked} sheets");
    println!("{asked} sheets");
}
