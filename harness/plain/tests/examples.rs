//! The sheets of examples/ and the cases of `replay`, whose answers were derived by hand.

use plain::{Room, decide, decide_only, printed, rewrite, written};

const MOST: usize = 65536;
/// What an output is filled with before a call.
const FILL: u8 = 126;

#[test]
fn examples() {
    let (mut room, mut out, mut seen) = (Room::new(), vec![0; MOST], 0);
    for example in sheets::examples() {
        let name = &example.name;
        let result = decide(&example.sheet, &mut out, &mut room);
        let (answer, expected) = (printed(result, &out), &example.answer);
        assert_eq!(
            String::from_utf8_lossy(&answer),
            String::from_utf8_lossy(expected),
            "{name}"
        );
        if expected[0] != b'e' {
            let length = rewrite(&example.sheet, &mut out, &mut room);
            assert_eq!(&out[..length as usize], example.sheet, "{name}");
        }
        seen += 1;
    }
    assert!(seen > 150, "{seen} examples");
}

#[test]
fn replay_cases() {
    let (mut room, mut seen) = (Room::new(), 0);
    for case in sheets::replay_cases() {
        let (sheet, name) = (&case.sheet, &case.name);
        let mut out = vec![FILL; case.room];
        let result = match case.entry {
            b'd' => decide(sheet, &mut out, &mut room),
            b'k' => decide_only(b'K', sheet, &mut out, &mut room),
            b'i' => decide_only(b'I', sheet, &mut out, &mut room),
            b'x' => decide_only(b'D', sheet, &mut out, &mut room),
            _ => rewrite(sheet, &mut out, &mut room),
        };
        assert_eq!(printed(result, &out), case.answer, "{name}");
        let behind = &out[written(result)..];
        assert!(behind.iter().all(|b| *b == FILL), "{name}");
        seen += 1;
    }
    assert!(seen > 1200, "{seen} cases");
}
