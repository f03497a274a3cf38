//! The accepted sheets of examples/, whose answers were derived by hand: the files must give them too.

use sheets::OUTPUT_REQUIREMENTS;

#[test]
fn examples() {
    if !oracle::AVAILABLE {
        return eprintln!("NOT run: the three files are not at hand");
    }
    let (mut asked, mut wrong) = (0, vec![]);
    for example in sheets::examples() {
        if !oracle::is_accepted(&example.answer) {
            continue;
        }
        let answer = std::panic::catch_unwind(|| oracle::decide(&example.sheet));
        let answer = answer.unwrap_or_default();
        let excused = OUTPUT_REQUIREMENTS.contains(&example.name.as_str());
        if (answer != example.answer) != excused {
            let answer = String::from_utf8_lossy(&answer);
            wrong.push(format!("{}: {answer}", example.name));
        }
        asked += 1;
    }
    assert!(wrong.is_empty(), "{}", wrong.join("\n"));
    assert!(asked > 100, "{asked} sheets");
}
