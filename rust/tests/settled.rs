//! The settled examples of the rules, through the crate's calls.
use peldarox::raw::{self, Counts, Entry, Tables, TablesMut};
use peldarox::{parse_left_hand_sides_str, parse_replacements_str, parse_right_hand_sides_str, Refusal};

fn refused<T>(number: u32, place: u64) -> Result<T, Refusal> {
    Err(Refusal { number, place })
}

#[test]
fn replacements_that_are_refused() {
    for (text, number, place) in [
        ("%0 = add %0, 1", 6, 9),
        ("%0 =", 4, 3),
        ("%0", 4, 1),
        ("cand - 1", 5, 5),
        ("%a = var (knownBits =0)", 3, 19),
        ("%a = var (knownBits=)", 3, 20),
        ("%0=var %0=var", 6, 7),
        ("pc 1 2", 4, 5),
        ("%b = block 2 %p = phi %b, 1", 4, 26),
        ("cand 170141183460469231731687303715884105728 0", 5, 5),
    ] {
        assert_eq!(parse_replacements_str(text), refused(number, place), "{text}");
    }
}

#[test]
fn types_at_the_ends_of_their_range() {
    assert_eq!(parse_left_hand_sides_str("%a:i0 = var infer %a"), refused(4, 3));
    assert_eq!(parse_left_hand_sides_str("%a:i65536 = var infer %a"), refused(4, 3));
    assert_eq!(parse_left_hand_sides_str("%a:i65535 = var infer %a").unwrap().len(), 1);
}

#[test]
fn the_least_integer_is_read_and_printed() {
    let least = "cand -170141183460469231731687303715884105728 0\n";
    assert_eq!(parse_replacements_str(least).unwrap().to_string(), least);
}

#[test]
fn an_empty_text_prints_nothing() {
    for text in ["", " \n", "; only a comment"] {
        let rules = parse_replacements_str(text).unwrap();
        assert!(rules.is_empty());
        assert_eq!(rules.to_string(), "");
    }
}

#[test]
fn the_whole_print() {
    let rules = parse_replacements_str("%1=var %0 = var pc %0 1 %2:i08=add %1, -0 cand %2 007").unwrap();
    assert_eq!(rules.counts(), Counts { items: 1, statements: 4, operands: 6, attributes: 0 });
    assert_eq!(["%1", "%0", "", "%2", ""], [0, 1, 2, 3, 4].map(|row| rules.name(row)));
    assert_eq!(rules.to_string(), "%1 = var\n%2:i8 = add %1, 0\ncand %2 7\n");
    let again = parse_replacements_str(&rules.to_string()).unwrap();
    assert_eq!(again, rules);
    assert_eq!(again.to_string(), rules.to_string());
}

#[test]
fn right_hand_sides_end_their_lines() {
    let sides = parse_right_hand_sides_str("result 1 result -1").unwrap();
    assert_eq!(sides.len(), 2);
    assert_eq!(sides.to_string(), "result 1\nresult -1\n");
    assert_ne!(sides, parse_right_hand_sides_str("result 1 result 1").unwrap());
}

#[test]
fn a_text_may_have_65536_bytes_and_no_more() {
    let longest = " ".repeat(raw::MOST_BYTES);
    assert!(parse_replacements_str(&longest).unwrap().is_empty());
    assert_eq!(parse_replacements_str(&(longest + " ")), refused(1, 65_536));
}

#[test]
fn bytes_that_are_no_text_are_refused() {
    let mut tables = TablesMut { items: &mut [7; 9], statements: &mut [7; 10], operands: &mut [], attributes: &mut [] };
    assert_eq!(raw::read(Entry::Replacements, b"; \xff", &mut tables), refused(2, 2));
    assert!(tables.items.iter().chain(&*tables.statements).all(|word| *word == 0));
}

/// Reads a left-hand side with so many words of statements.
fn read_with(statements: &mut [u32]) -> Result<(Vec<u32>, Vec<u32>, Counts), Refusal> {
    let (mut items, mut operands) = (vec![0; 9], vec![0; 7]);
    let mut tables = TablesMut { items: &mut items, statements, operands: &mut operands, attributes: &mut [] };
    let counts = raw::read(Entry::LeftHandSides, SIDE, &mut tables)?;
    Ok((items, operands, counts))
}

const SIDE: &[u8] = b"%a=var %b=freeze %a infer %b";

#[test]
fn too_few_rows_words_and_bytes() {
    assert_eq!(read_with(&mut [0; 19]), refused(7, 20));
    let mut statements = [0; 20];
    let (items, operands, counts) = read_with(&mut statements).unwrap();
    let tables = Tables { items: &items, statements: &statements, operands: &operands, attributes: &[] };
    let (mut work, mut output) = ([5; 8], [b'?'; 40]);
    assert_eq!(counts.work_words(), 8);
    assert_eq!(raw::print(SIDE, tables, counts, &mut work[..7], &mut output), refused(9, 8));
    assert_eq!(raw::print(SIDE, tables, counts, &mut work, &mut output[..32]), refused(10, 33));
    assert_eq!(raw::print(SIDE, tables, counts, &mut work, &mut output), Ok(33));
    assert_eq!(&output, b"%a = var\n%b = freeze %a\ninfer %b\n???????");
    assert_eq!(work, [0; 8]);
}

#[test]
fn tables_that_are_not_well_formed() {
    let text = b"%a = var";
    let (mut work, mut output) = ([0; 8], [0; 8]);
    let mut tables = TablesMut { items: &mut [1; 9], statements: &mut [], operands: &mut [], attributes: &mut [] };
    let counts = Counts { items: 1, ..Counts::default() };
    assert_eq!(raw::print(text, tables.shared(), counts, &mut work, &mut output), refused(8, 0));
    assert_eq!(raw::name(text, tables.shared(), counts, 0), b"");
    tables.items = &mut [];
    assert_eq!(raw::print(text, tables.shared(), Counts::default(), &mut work, &mut output), Ok(0));
}

#[test]
fn a_refusal_is_an_error() {
    let refusal: Box<dyn std::error::Error> = parse_replacements_str("cand - 1").unwrap_err().into();
    assert_eq!(refusal.to_string(), "refused 5 at 5: an integer is malformed or does not fit its field");
}
