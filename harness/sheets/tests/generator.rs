//! The generator: the same seed gives the same sheets, and sheets stay within document 01's sizes.

use sheets::{Line, Manner, Random, Sheet, damage, exchange_sheet, short_key_sheets, some_sheet};

#[test]
fn the_same_seed_gives_the_same_sheets() {
    let made = |seed| {
        let mut random = Random::new(seed);
        let sheets = (0..200).map(|_| some_sheet(&mut random).text());
        sheets.collect::<Vec<_>>()
    };
    assert_eq!(made(1), made(1));
    assert_ne!(made(1), made(2));
}

#[test]
fn sizes() {
    let manner = Manner {
        large: true,
        planned: false,
    };
    let mut random = Random::new(3);
    let (mut trees, mut children, mut bytes) = (0, 0, 0);
    for _ in 0..3_000 {
        let sheet = exchange_sheet(&mut random, manner);
        let count = |letter| sheet.0.iter().filter(|l| l.letter == letter).count();
        (trees, children) = (trees.max(count(b'T')), children.max(count(b'F')));
        bytes = bytes.max(sheet.text().len());
    }
    assert!((200..=256).contains(&trees), "{trees} operators");
    assert_eq!(children, 8);
    assert!((5000..65536).contains(&bytes), "{bytes} bytes");
}

#[test]
fn a_sheet_is_read_as_it_was_written() {
    let mut random = Random::new(4);
    for _ in 0..2000 {
        let text = some_sheet(&mut random).text();
        assert_eq!(Sheet::read(&text).text(), text);
    }
}

#[test]
fn damage_changes_most_sheets() {
    let mut random = Random::new(5);
    let sheet = Sheet(vec![Line::new(b'I', [2, 0]), Line::new(b'L', [0, 1, 0])]);
    let changed = (0..1000).filter(|_| damage(&mut random, &sheet) != sheet.text());
    assert!(changed.count() > 800);
}

#[test]
fn every_short_key_sheet_is_another() {
    let texts: std::collections::HashSet<Vec<u8>> = short_key_sheets().map(|s| s.text()).collect();
    // 40 required lists, 1 + 9 + 81 lists of pairs, 10 rewriting lists, 2 operators
    assert_eq!(texts.len(), 40 * 91 * 10 * 2);
}
