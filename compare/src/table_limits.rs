//! Tables about 65,536 rows and texts about 65,536 bytes, the most that well-formed ones have.
use crate::answer::*;
use crate::rows::*;
use crate::tables::Tables;

/// Gives tables whose only fault, where they have one, is a count or a text past the limit.
pub fn at_the_limits(give: &mut impl FnMut(&Tables)) {
    for rows in LONGEST as u32 - 1..=LONGEST as u32 + 1 {
        give(&candidate_of_attributes(rows));
        give(&phi_of_operands(rows));
        give(&right_hand_sides(rows));
        give(&left_hand_sides(rows));
    }
    for bytes in LONGEST - 1..=LONGEST + 1 {
        let mut tables = phi_of_operands(3);
        tables.text.resize(bytes, b' ');
        give(&tables);
    }
}

fn span(first: u32, past: u32) -> Span {
    Span { first, past }
}

fn zero() -> [u32; 7] {
    OperandRow { code: CONSTANT, row: 0, width: 0, bits: 0 }.words()
}

fn counted(text: &[u8], words: [Vec<u32>; 4]) -> Tables {
    let counts = std::array::from_fn(|table| (words[table].len() / ROW_WORDS[table]) as u64);
    Tables { text: text.to_vec(), words, counts }
}

/// `cand 0 0` with so many attributes.
fn candidate_of_attributes(rows: u32) -> Tables {
    let item = ItemRow {
        kind: CAND,
        statements: NO_SPAN,
        middle: 0,
        infer: 0,
        operands: span(0, 2),
        attributes: span(0, rows),
    };
    let note = AttributeRow { code: HARVESTED_FROM_USE, pattern: NO_SPAN, low: 0, high: 0 }.words();
    counted(b"", [item.words().to_vec(), vec![], zero().repeat(2), note.repeat(rows as usize)])
}

/// The left-hand side `%p` of a phi with so many operands.
fn phi_of_operands(rows: u32) -> Tables {
    let statement = |code, name, number, operands| {
        StatementRow { code, name, width: 0, number, block: 0, operands, attributes: NO_SPAN }.words()
    };
    let block = statement(BLOCK, span(0, 2), rows, NO_SPAN);
    let phi = statement(PHI, span(2, 4), 0, span(0, rows));
    let item = ItemRow {
        kind: LEFT_HAND_SIDE,
        statements: span(0, 2),
        middle: 2,
        infer: 1,
        operands: span(rows, rows),
        attributes: NO_SPAN,
    };
    counted(b"%b%p", [item.words().to_vec(), [block, phi].concat(), zero().repeat(rows as usize), vec![]])
}

/// So many times `result 0`.
fn right_hand_sides(rows: u32) -> Tables {
    let item = |row| ItemRow {
        kind: RIGHT_HAND_SIDE,
        statements: NO_SPAN,
        middle: 0,
        infer: 0,
        operands: span(row, row + 1),
        attributes: NO_SPAN,
    };
    let items = (0..rows).flat_map(|row| item(row).words()).collect();
    counted(b"", [items, vec![], zero().repeat(rows as usize), vec![]])
}

/// So many times `%a = hole infer %a`.
fn left_hand_sides(rows: u32) -> Tables {
    let item = |row| ItemRow {
        kind: LEFT_HAND_SIDE,
        statements: span(row, row + 1),
        middle: row + 1,
        infer: row,
        operands: NO_SPAN,
        attributes: NO_SPAN,
    };
    let items = (0..rows).flat_map(|row| item(row).words()).collect();
    let code = code_of(&STATEMENT_CODES, b"hole");
    let statement =
        StatementRow { code, name: span(0, 2), width: 0, number: 0, block: 0, operands: NO_SPAN, attributes: NO_SPAN };
    counted(b"%a", [items, statement.words().repeat(rows as usize), vec![], vec![]])
}

#[cfg(test)]
mod tests {
    use super::*;
    use crate::wellformed::well_formed;

    #[test]
    fn one_more_is_too_many() {
        let mut said = vec![];
        at_the_limits(&mut |tables| said.push(well_formed(tables)));
        let past = |well_formed: &[bool]| well_formed.iter().filter(|one| !**one).count();
        assert_eq!((said.len(), past(&said[..8]), past(&said[8..12]), past(&said[12..])), (15, 0, 4, 1));
    }
}
