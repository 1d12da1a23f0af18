//! The settled examples, by the crate and by the model.
use compare::answer::*;
use compare::{memory::Memory, model, oracle, printing, run, settled};

#[test]
fn examples_and_traps_are_answered_by_crate_and_model() {
    let mut memory = Memory::new();
    for (entry, text, number, place) in settled::EXAMPLES.iter().chain(&settled::TRAPS) {
        let said = oracle::read(*entry, text.as_bytes()).answer;
        let reading = model::read(*entry, text.as_bytes());
        assert_eq!((said.number, said.place), (*number, *place), "crate, {}", text);
        assert_eq!(reading.end, said, "model, {}", text);
        assert_eq!(run::difference(*entry, text.as_bytes(), &reading, &mut memory), None, "{}", text);
    }
}

#[test]
fn the_whole_prints() {
    let ordered = (settled::ORDERED, [1, 7, 7, 6], settled::ORDERED_PRINT);
    for (text, counts, print) in [(settled::WHOLE, [1, 4, 6, 0], settled::WHOLE_PRINT), ordered] {
        let said = oracle::read(Entry::Replacements, text.as_bytes());
        assert_eq!(said.answer, Answer::accepted(counts));
        assert_eq!(said.print, print);
        let reading = model::read(Entry::Replacements, text.as_bytes());
        assert_eq!(reading.answer(ENOUGH), said.answer);
        assert_eq!(printing::print(&reading.items), said.print.as_bytes());
        assert_eq!(run::difference(Entry::Replacements, text.as_bytes(), &reading, &mut Memory::new()), None);
    }
}

#[test]
fn the_first_claim_past_capacity_is_seven() {
    for (entry, text, rows, place) in settled::CLAIMS {
        let reading = model::read(entry, text.as_bytes());
        assert_eq!(reading.answer(ENOUGH).number, ACCEPTED, "{}", text);
        assert_eq!(reading.answer(rows), Answer::refused(NO_ROW, place as usize), "{}", text);
        assert_eq!(run::difference(entry, text.as_bytes(), &reading, &mut Memory::new()), None, "{}", text);
    }
}

#[test]
fn the_empty_list_prints_nothing() {
    for entry in ENTRIES {
        let said = oracle::read(entry, b"");
        assert_eq!((said.answer, said.print.as_str()), (Answer::accepted([0; 4]), ""));
    }
}

#[test]
fn right_hand_sides_get_a_line_feed_each() {
    assert_eq!(oracle::read(Entry::RightHandSides, b"result 1 result 2").print, "result 1\nresult 2\n");
}

#[test]
fn attributes_print_without_spaces() {
    let text =
        "%a=var ( range = [ 00 , 4 ) ) ( signBits = 03 ) ( knownBits=01x ) %b=block 02 %p=phi %b , %a , 1 cand %p 1";
    let said = oracle::read(Entry::Replacements, text.as_bytes());
    let lines =
        ["%b = block 2", "%a = var (range=[0,4)) (signBits=3) (knownBits=01x)", "%p = phi %b, %a, 1", "cand %p 1", ""];
    assert_eq!(said.print, lines.join("\n"));
}

#[test]
fn length_comes_first_and_encoding_second() {
    let answer = |text: &[u8]| {
        let said = oracle::read(Entry::Replacements, text).answer;
        assert_eq!(said, model::read(Entry::Replacements, text).end);
        (said.number, said.place)
    };
    assert_eq!(answer(&[0xFF; LONGEST + 1]), (TOO_LONG, LONGEST as u64));
    assert_eq!(answer(&[b' '; LONGEST]), (ACCEPTED, 0));
    assert_eq!(answer(b"% \xE2\x80"), (NOT_UTF8, 2));
    assert_eq!(answer(b"\xED\xA0\x80"), (NOT_UTF8, 0));
}

/// Each claim of a text, in order: the table's letter and the token that is the last one found.
fn claims(entry: Entry, text: &str) -> Vec<String> {
    let reading = model::read(entry, text.as_bytes());
    let (tokens, _) = compare::lexer::tokens(text.as_bytes());
    let letters = |place: usize| {
        let token = tokens.iter().find(|token| token.first == place).unwrap();
        &text[token.first..token.past]
    };
    reading
        .claims
        .iter()
        .map(|(table, place)| format!("{}{}", ["I ", "S ", "O ", "A "][*table], letters(*place)))
        .collect()
}

#[test]
fn rows_are_claimed_when_the_rules_say() {
    // a constant after the look for `:`, a value at once, an attribute at its last `)`, a statement after a further look
    let text = "%a:i8 = add 1, 2:i16 (range=[3,4)) pc %a 5 infer %a (harvestedFromUse) %b = zext %a result %b";
    let expected =
        ["O ,", "O i16", "A )", "S pc", "O %a", "O infer", "S infer", "A )", "O %a", "S result", "O %b", "I %b"];
    assert_eq!(claims(Entry::Replacements, text), expected);
    // an item that closes with `cand` or `infer` after the look that finds no further attribute; at the end of text that
    // look finds nothing
    let text = "%x = block 1 (nonZero) blockpc %x 0 1 2 cand %x 3 (demandedBits=1) cand 4 5";
    let expected = ["A )", "S blockpc", "O 2", "O cand", "S cand", "O %x", "O (", "A )", "I cand", "O 5", "O 5", "I 5"];
    assert_eq!(claims(Entry::Replacements, text), expected);
    let text = "%b = block 1 %p = phi %b, %b infer %p %c = var infer %c";
    let expected = ["S %p", "O %b", "S infer", "I %c", "S infer", "I %c"];
    assert_eq!(claims(Entry::LeftHandSides, text), expected);
    assert_eq!(claims(Entry::RightHandSides, "result 1 result 2:i8"), ["O result", "I result", "O i8", "I i8"]);
}
