//! Differences between the files and the others that are excused, each named after its row in docs/DIFFERENCES.md: a predicate on the
//! sheet, which gives the sheet that the files then see in its place. The answer to that one must be the files' answer.

use sheets::{Line, Sheet};

/// Worked kind 10 with `gains` 1, with `maintains` 0, or, where it is the root, with a limit and `friendly` 1: 002's answers in their place.
fn output_requirement(text: &[u8]) -> Option<Vec<u8>> {
    if text.first() != Some(&b'D') {
        return None;
    }
    let mut sheet = Sheet::read(text);
    let is_tree = |line: &&Line| line.letter == b'T';
    let stays = |line: &Line| line.fields[3].is_some() || !matches!(line.fields[0], Some(1..=4));
    let mut trees = sheet.0.iter().filter(is_tree).enumerate();
    let (place, worked) = trees.find(|(_, line)| stays(line))?;
    if worked.fields[0] != Some(10) {
        return None;
    }
    let bounded = place == 0 && worked.fields[3].is_some();
    for line in &mut sheet.0 {
        match line.letter {
            b'F' => line.fields[..2].copy_from_slice(&[Some(0), Some(1)]),
            b'B' if bounded => line.fields[0] = Some(0),
            _ => {}
        }
    }
    let seen = sheet.text();
    (seen != text).then_some(seen)
}

type Excuse = (&'static str, fn(&[u8]) -> Option<Vec<u8>>);

pub const EXCUSES: [Excuse; 1] = [(
    "Output requirements that 002 never has (decision 28)",
    output_requirement,
)];

#[cfg(test)]
mod tests {
    use super::output_requirement;
    use sheets::OUTPUT_REQUIREMENTS;

    fn example(name: &str) -> Vec<u8> {
        let mut examples = sheets::examples().into_iter();
        examples.find(|example| example.name == name).unwrap().sheet
    }

    #[test]
    fn output_requirements_that_002_never_has() {
        for name in OUTPUT_REQUIREMENTS {
            assert!(output_requirement(&example(name)).is_some(), "{name}");
        }
    }

    #[test]
    fn other_sheets_are_not_excused() {
        for name in [
            "printed",
            "marked-10",
            "decision-35-split-of-output-requirement",
        ] {
            assert!(output_requirement(&example(name)).is_none(), "{name}");
        }
        let plain = example("decision-24-output-requirement");
        assert!(output_requirement(&plain).is_none());
    }
}
