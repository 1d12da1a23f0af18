//! The settled examples of docs/RULES.md, section 9, and the readings that careless hands get wrong.
use crate::answer::Entry::{self, LeftHandSides as L, Replacements as R, RightHandSides as T};
use crate::answer::Rows;

/// The table of answers: entry, text, number and place.
pub const EXAMPLES: [(Entry, &str, u64, u64); 16] = [
    (R, "", 0, 0),
    (R, "%0 = add %0, 1", 6, 9),
    (R, "%0 =", 4, 3),
    (R, "%0", 4, 1),
    (R, "cand - 1", 5, 5),
    (L, "%a:i0 = var infer %a", 4, 3),
    (L, "%a:i65536 = var infer %a", 4, 3),
    (L, "%a:i65535 = var infer %a", 0, 0),
    (R, "%a = var (knownBits =0)", 3, 19),
    (R, "%a = var (knownBits=)", 3, 20),
    (R, "%0=var %0=var", 6, 7),
    (R, "pc 1 2", 4, 5),
    (T, "result 1 result %x", 6, 16),
    (R, "%b = block 2 %p = phi %b, 1", 4, 26),
    (R, "cand 170141183460469231731687303715884105728 0", 5, 5),
    (R, "cand -170141183460469231731687303715884105728 0", 0, 0),
];

/// The whole print.
pub const WHOLE: &str = "%1=var %0 = var pc %0 1 %2:i08=add %1, -0 cand %2 007";
pub const WHOLE_PRINT: &str = "%1 = var\n%2:i8 = add %1, 0\ncand %2 7\n";

/// The print in order: attributes of both sorts, a `phi` with its block, statements on both sides of `infer`, and operands
/// whose order decides which line stands first.
pub const ORDERED: &str = "%b=block 2 %x:i08=var (nonZero)(knownBits=0x1) %y=var %p:i8=phi %b,%y,%x (range=[-1,4)) \
    %s:i8=sub %p,%y (signBits=03) infer %s (demandedBits=01) %u=var %r=shl %x,%u (hasExternalUses) result %r";
pub const ORDERED_PRINT: &str = "\
    %b = block 2\n\
    %y = var\n\
    %x:i8 = var (nonZero) (knownBits=0x1)\n\
    %p:i8 = phi %b, %y, %x (range=[-1,4))\n\
    %s:i8 = sub %p, %y (signBits=3)\n\
    infer %s (demandedBits=01)\n\
    %u = var\n\
    %r = shl %x, %u (hasExternalUses)\n\
    result %r\n";

/// The first claim past capacity: entry, text, rows lent, and the place of the 7. A statement's claim is after a further look; a
/// value's at once; a constant's after the look for `:`; an attribute's at its last `)`; an item's after a further look behind
/// `infer`, at once behind `result`.
pub const CLAIMS: [(Entry, &str, Rows, u64); 6] = [
    (R, WHOLE, [100, 3, 100, 100], 42),
    (R, WHOLE, [100, 100, 0, 100], 19),
    (R, WHOLE, [100, 100, 1, 100], 24),
    (R, ORDERED, [100, 100, 100, 2], 86),
    (L, "%a=var infer %a %b=var infer %b", [0, 100, 100, 100], 16),
    (T, "result 1:i8 result 2", [0, 100, 100, 100], 9),
];

/// Readings that are easy to get wrong: lazy lexing, the two ends of text, looks that move the last token found, integers
/// at the limits of each field, patterns, scope, blocks and attributes.
pub const TRAPS: [(Entry, &str, u64, u64); 70] = [
    (R, "%a   =   ;c", 4, 5),
    (R, "%a=var cand %a   ", 4, 16),
    (R, "   ", 0, 0),
    (R, ";", 0, 0),
    (R, "knownBits", 3, 8),
    (R, "%a = var (knownBits", 3, 18),
    (R, "%a = var (knownBits=", 3, 20),
    (R, "%a = var (knownBits\u{2028}", 3, 19),
    (R, "%a = var knownBitsx", 4, 9),
    (R, "%a = knownBitsx", 4, 5),
    (R, "%a = knownBits. %", 4, 5),
    (R, "12knownBits=0", 4, 0),
    (R, "%a=var%b=var cand%a%b", 0, 0),
    (R, "cand 1-1", 0, 0),
    (R, "cand 1 -", 5, 7),
    (R, "cand -0 -007", 0, 0),
    (R, "cand 1, 2", 4, 6),
    (R, "cand 1:i8 2:i0", 4, 12),
    (R, "cand 1:i00 2", 4, 7),
    (R, "cand 1:i0000000008 2", 0, 0),
    (R, "cand 1:8 2", 4, 7),
    (R, "cand 1: i8 2", 0, 0),
    (R, "cand 1 2 %", 3, 9),
    (R, "%", 3, 0),
    (R, " % a", 3, 1),
    (R, "%0 = add %0 %", 6, 9),
    (R, "cand %a%", 6, 5),
    (R, "cand 1%", 3, 6),
    (R, "%a = block 1 cand %a %a", 0, 0),
    (R, "%a = block -0 %b = phi %a cand %b 0", 0, 0),
    (R, "%a = block 007 cand %a %a", 0, 0),
    (R, "%a = block -1", 5, 11),
    (R, "%a = block 4294967295 cand 1 1", 0, 0),
    (R, "%a = block 4294967296", 5, 11),
    (R, "%a = block -", 5, 11),
    (R, "%a = block %a", 4, 11),
    (R, "%a = block 340282366920938463463374607431768211456", 5, 11),
    (R, "%a = block 4294967295 %b = phi %a, 1", 4, 35),
    (R, "%a = var %b = phi %a", 6, 18),
    (R, "%a = phi %a", 6, 9),
    (R, "%a = var blockpc %a 0 1 1", 6, 17),
    (R, "%a = block 1 blockpc %a 4294967296 1 1", 5, 24),
    (R, "%a = block 1 blockpc %a 9 1 1 cand 1 1", 0, 0),
    (R, "%a = block 1 blockpc %a 0, 1 1", 4, 25),
    (R, "%a = var (signBits=255) cand %a 1", 0, 0),
    (R, "%a = var (signBits=-0) cand %a 1", 0, 0),
    (R, "%a = var (signBits=256)", 5, 19),
    (R, "%a = var (signBits=x)", 4, 19),
    (R, "%a = var (range=[0,4)) cand %a 1", 0, 0),
    (R, "%a = var (range=[0,4) cand %a 1", 4, 22),
    (R, "%a = var (range=[0,-))", 5, 19),
    (R, "%a = var (harvestedFromUse)", 4, 10),
    (R, "cand 1 2 (harvestedFromUse) (demandedBits=0110) cand 1 2", 0, 0),
    (R, "cand 1 2 (nonZero)", 4, 10),
    (R, "cand 1 2 (demandedBits=012)", 4, 23),
    (R, "cand 1 2 (demandedBits=-1)", 4, 23),
    (R, "cand 1 2 (demandedBits=-)", 4, 23),
    (R, "cand 1 2 (demandedBits=01x)", 4, 25),
    (R, "cand 1 2 (demandedBits=)", 4, 23),
    (R, "%a = block 1 (nonZero) %b = phi %a, 1 (nonZero)(nonZero) cand %a %b", 0, 0),
    (R, "%a = var infer %a result 1 (harvestedFromUse)", 4, 27),
    (R, "%a = var infer %a (harvestedFromUse) %b = var result %b", 0, 0),
    (R, "%a = var infer %a %a = var", 6, 18),
    (R, "%a = var infer %b %", 6, 15),
    (R, "pc 1 2 (nonZero)", 4, 7),
    (R, "%a = hole (nonZero) cand %a %a", 0, 0),
    (R, "%a = var cand %a %a cand %a %a", 6, 25),
    (L, "%a = var infer %a infer %a", 6, 24),
    (L, "%a = var cand %a 1", 4, 9),
    (T, "result 1 result 2:i8 result", 4, 26),
];
