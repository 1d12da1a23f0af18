//! Rules on disk, through the crate's calls: the settled files, files that were damaged, and memory that is too small.
use peldarox::raw::{self, Counts, TablesMut};
use peldarox::{
    parse_left_hand_sides_str, parse_replacements_str, parse_right_hand_sides_str, LeftHandSides, Refusal,
    Replacements, RightHandSides, StoredError,
};

fn refused<T>(number: u32) -> Result<T, StoredError> {
    Err(StoredError::Refused(Refusal { number, place: 0 }))
}

/// A file of these parts, its trailer told by hand.
fn file_of(parts: &[u8], trailer: [u32; 11]) -> Vec<u8> {
    parts.iter().copied().chain(trailer.iter().flat_map(|word| word.to_le_bytes())).collect()
}

#[test]
fn the_file_of_a_rule() {
    let file = parse_replacements_str("cand 1 2").unwrap().to_stored();
    assert_eq!(file.len(), 144);
    assert_eq!(&file[..8], b"cand 1 2");
    assert_eq!(&file[100..], &file_of(b"", [0, 8, 8, 36, 44, 0, 44, 56, 100, 0, 1]));
    let rules = Replacements::from_stored(&file).unwrap();
    assert_eq!((rules.text(), rules.to_string().as_str()), ("cand 1 2", "cand 1 2\n"));
    assert_eq!(rules.to_stored(), file);
    assert_eq!(Replacements::from_stored(&file[..143]), refused(13));
    assert_eq!(Replacements::from_stored(&[&b" "[..], &file].concat()), refused(14));
}

#[test]
fn files_that_hold_nothing() {
    assert_eq!(Replacements::from_stored(&[0; 43]), refused(14));
    assert_eq!(Replacements::from_stored(&[0; 44]), refused(13));
    let empty = file_of(b"", [0, 0, 0, 0, 0, 0, 0, 0, 0, 0, 1]);
    assert!(RightHandSides::from_stored(&empty).unwrap().is_empty());
    let letter = file_of(b"A", [0, 1, 1, 0, 1, 0, 1, 0, 1, 0, 1]);
    assert_eq!(LeftHandSides::from_stored(&letter).unwrap().text(), "A");
    let far = file_of(b"", [u32::MAX, 0, 0, 0, 0, 0, 0, 0, 0, 0, 1]);
    assert_eq!(Replacements::from_stored(&far), refused(14));
    let no_text = file_of(b"\xff", [0, 1, 1, 0, 1, 0, 1, 0, 1, 0, 1]);
    assert_eq!(Replacements::from_stored(&no_text), Err(StoredError::NoText));
}

#[test]
fn a_list_of_another_kind_is_an_error() {
    let rules = parse_replacements_str("cand 1 2 %a=var infer %a result 1").unwrap().to_stored();
    let left = parse_left_hand_sides_str("%a=var infer %a").unwrap().to_stored();
    let right = parse_right_hand_sides_str("result 1 result 2").unwrap().to_stored();
    let other = |item| StoredError::OtherKind { item };
    assert_eq!(Replacements::from_stored(&rules).unwrap().len(), 2);
    assert_eq!(LeftHandSides::from_stored(&rules), Err(other(0)));
    assert_eq!(LeftHandSides::from_stored(&left).unwrap().len(), 1);
    assert_eq!(Replacements::from_stored(&left), Err(other(0)));
    assert_eq!(RightHandSides::from_stored(&right).unwrap().len(), 2);
    assert_eq!(Replacements::from_stored(&right), Err(other(0)));
    assert_eq!(other(0).to_string(), "item 0 is of another kind of list");
}

#[test]
fn a_mix_is_an_error_at_its_first_item_of_another_kind() {
    let mut file = parse_replacements_str("cand 1 2\ncand 3 4").unwrap().to_stored();
    // the second item: a right-hand side with one operand would be another row; a kind alone makes the tables not well formed
    file[17 + 36] = 4;
    assert_eq!(Replacements::from_stored(&file), refused(8));
    // a left-hand side and a right-hand side in one file
    let items = [3, 0, 1, 1, 0, 0, 0, 0, 0, 4, 1, 1, 1, 0, 0, 1, 0, 0];
    let statements = [60, 0, 2, 0, 0, 0, 0, 0, 0, 0];
    let operands = [2, 0, 0, 0, 0, 0, 7];
    let rows: Vec<u8> =
        items.iter().chain(&statements).chain(&operands).flat_map(|word: &u32| word.to_le_bytes()).collect();
    let mix = file_of(&[&b"%a"[..], &rows].concat(), [0, 2, 2, 72, 74, 40, 114, 28, 142, 0, 1]);
    assert_eq!(LeftHandSides::from_stored(&mix), Err(StoredError::OtherKind { item: 1 }));
    assert_eq!(RightHandSides::from_stored(&mix), Err(StoredError::OtherKind { item: 0 }));
}

#[test]
fn rows_come_back_word_for_word() {
    let text = "%1=var (knownBits=01x) %0 = var pc %0 1 %2:i08=add %1, -0 (range=[-1,1)) cand %2 007";
    let rules = parse_replacements_str(text).unwrap();
    let loaded = Replacements::from_stored(&rules.to_stored()).unwrap();
    assert_eq!((loaded.text(), loaded.counts()), (text, rules.counts()));
    let (before, after) = (rules.tables(), loaded.tables());
    assert_eq!((before.items, before.statements), (after.items, after.statements));
    assert_eq!((before.operands, before.attributes), (after.operands, after.attributes));
    assert_eq!(loaded.to_string(), rules.to_string());
}

#[test]
fn lent_memory_that_is_too_small_stays_as_it_is() {
    let file = parse_replacements_str("cand 1 2").unwrap().to_stored();
    assert_eq!(raw::part_bytes(&file), [8, 36, 0, 56, 0]);
    for (letters, item_words, operand_words) in [(7, 9, 14), (8, 8, 14), (8, 9, 13)] {
        let (mut text, mut items, mut operands) = (vec![7; letters], vec![7; item_words], vec![7; operand_words]);
        let mut tables =
            TablesMut { items: &mut items, statements: &mut [], operands: &mut operands, attributes: &mut [] };
        assert_eq!(raw::load(&file, &mut text, &mut tables), Err(Refusal { number: 15, place: 0 }));
        assert!(text.iter().all(|byte| *byte == 7) && items.iter().chain(&operands).all(|word| *word == 7));
    }
    let (mut text, mut items, mut statements, mut operands) = ([7; 10], [7; 10], [7; 3], [7; 14]);
    let mut tables =
        TablesMut { items: &mut items, statements: &mut statements, operands: &mut operands, attributes: &mut [] };
    let counts = Counts { items: 1, operands: 2, ..Counts::default() };
    assert_eq!(raw::load(&file, &mut text, &mut tables), Ok((8, counts)));
    assert_eq!(&text, b"cand 1 2\x07\x07");
    assert_eq!((items, statements), ([2, 0, 0, 0, 0, 0, 2, 0, 0, 0], [0; 3]));
    let tables =
        TablesMut { items: &mut items, statements: &mut statements, operands: &mut operands, attributes: &mut [] };
    let mut output = [9; 150];
    assert_eq!(counts.stored_bytes(8), 144);
    let too_short = raw::store(&text[..8], tables.shared(), counts, &mut output[..143]);
    assert_eq!(too_short, Err(Refusal { number: 15, place: 0 }));
    assert_eq!(output, [9; 150]);
    assert_eq!(raw::store(&text[..8], tables.shared(), counts, &mut output), Ok(144));
    assert_eq!((&output[..144], &output[144..]), (&file[..], &[9; 6][..]));
}
