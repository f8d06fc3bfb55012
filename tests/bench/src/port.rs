//! The calls as the proved code had them before leaps, with no proofs. It reads rules and terms from the file's bytes, keeps a set
//! of rules still to look at and, for each variable, the set of rules that read it at a kept position.

mod bounds;
mod normal;
mod search;

pub use bounds::bounds_call;
pub use normal::normalize_call;
pub use search::{begin_call, components_call, step_call};
use search::{close, mark_edges, share, WORDS};

pub const MAX_FILE: usize = 60_000;
pub const VARIABLES: usize = 256;
pub const RULES: usize = 2_048;
pub const CONSTRAINTS: usize = 512;
const TERMS: usize = 16;
const MAX_DIVISOR: i64 = 1_000;
const ROW: usize = RULES / 64;

#[derive(Clone, Copy, PartialEq, Eq, Debug)]
pub struct Counts {
    pub variables: usize,
    pub rules: usize,
    pub constraints: usize,
}

pub fn word(s: &[u8], i: usize) -> usize {
    (s[i] as usize) << 8 | s[i + 1] as usize
}

pub fn number(s: &[u8], i: usize) -> i64 {
    i64::from(i16::from_be_bytes([s[i], s[i + 1]]))
}

pub fn pack(word: u64, a: usize, b: usize, c: usize) -> u64 {
    word | (a as u64) << 8 | (b as u64) << 24 | (c as u64) << 40
}

// ---- sets, on words

fn bit(words: &[u64], i: usize) -> bool {
    words[i / 64] >> (i % 64) & 1 == 1
}

fn count(words: &[u64]) -> usize {
    words.iter().map(|w| w.count_ones() as usize).sum()
}

/// The least number of the set at or above `from`.
fn next_bit(words: &[u64], from: usize) -> Option<usize> {
    let end = words.len() * 64;
    let mut at = from;
    while at < end {
        let w = words[at / 64] >> (at % 64);
        if w != 0 {
            return Some(at + w.trailing_zeros() as usize);
        }
        at = (at / 64 + 1) * 64;
    }
    None
}

// ---- reading

fn kind(file: &[u8], x: usize) -> u8 {
    file[8 * x + 3]
}

fn low(file: &[u8], x: usize) -> i64 {
    number(file, 8 * x + 4)
}

fn high(file: &[u8], x: usize) -> i64 {
    number(file, 8 * x + 6)
}

fn is_founded(file: &[u8], x: usize) -> bool {
    let (below, above) = (kind(file, x) == 1, kind(file, x) == 2);
    below | above
}

fn is_from_above(file: &[u8], x: usize) -> bool {
    kind(file, x) == 2
}

/// The end of its range from which rules lift a variable.
fn start(file: &[u8], x: usize) -> i64 {
    if is_from_above(file, x) {
        high(file, x)
    } else {
        low(file, x)
    }
}

/// The other end.
fn far(file: &[u8], x: usize) -> i64 {
    if is_from_above(file, x) {
        low(file, x)
    } else {
        high(file, x)
    }
}

/// Whether a comes before b in a variable's order.
fn is_before(file: &[u8], x: usize, a: i64, b: i64) -> bool {
    if is_from_above(file, x) {
        b < a
    } else {
        a < b
    }
}

fn literal_position(form: u8, i: usize) -> bool {
    form == 6 || form == 7 && i > 0
}

fn beyond(z: i64, m: i64) -> bool {
    z < -m || z > m
}

// ---- the parts of a rule's value: form, head, c, of form 8 its divisor, then its body

/// Of form 8; shorter where the value ends before.
fn divisor_part(v: &[u8]) -> &[u8] {
    if v.len() < 8 {
        return &v[4..];
    }
    &v[4..8]
}

/// Of form 8; 1 where it is missing.
pub fn divisor(v: &[u8]) -> i64 {
    let part = divisor_part(v);
    if part.len() < 4 {
        return 1;
    }
    number(part, 2)
}

/// Of form 8; empty where the value ends before.
fn divided_body(v: &[u8]) -> &[u8] {
    let len = v.len();
    if len < 8 {
        return &v[len..];
    }
    &v[8..]
}

fn body(v: &[u8]) -> &[u8] {
    if v[0] == 8 {
        return divided_body(v);
    }
    &v[4..]
}

fn positions(v: &[u8]) -> usize {
    body(v).len() / 4
}

/// Whether a divisor has the wrong variable byte or op, and whether its number is out of range.
fn divisor_faults(part: &[u8]) -> (bool, bool) {
    if part.len() < 4 {
        return (false, false);
    }
    let d = number(part, 2);
    (part[1] != 3 || part[0] != 0, d < 1 || d > MAX_DIVISOR)
}

/// Refusals 7 to 12 of a body whose terms stand in `body`; `before` are the flags of the rest of the field.
fn body_refusal(file: &[u8], variables: usize, form: u8, body: &[u8], before: [bool; 3], count: bool) -> u8 {
    let [mut wrong, mut outside, mut undeclared] = before;
    let (mut twice, mut negative) = (false, false);
    let terms = body.len() / 4;
    for i in 0..terms {
        let t = &body[4 * i..4 * i + 4];
        let (x, op, k) = (t[0] as usize, t[1], number(t, 2));
        let literal = literal_position(form, i);
        wrong |= if literal { op != 1 && op != 2 } else { op != 0 };
        wrong |= !literal && form != 1 && k != 0;
        outside |= if literal {
            beyond(k, 30_000)
        } else {
            form == 1 && (beyond(k, 1_000) || k == 0)
        };
        undeclared |= x >= variables;
        twice |= (0..i).any(|j| body[4 * j] == t[0]);
        negative |= form == 4 && x < variables && low(file, x) < 0;
    }
    match (wrong, outside, undeclared, count, twice, negative) {
        (true, ..) => 7,
        (_, true, ..) => 8,
        (_, _, true, ..) => 9,
        (_, _, _, true, ..) => 10,
        (_, _, _, _, true, _) => 11,
        (_, _, _, _, _, true) => 12,
        _ => 0,
    }
}

fn wrong_count(form: u8, n: usize) -> bool {
    match form {
        2 | 3 | 6 => n < 1,
        4 => n != 2,
        5 => n != 1,
        7 => n < 2,
        _ => false,
    }
}

// ---- a body with which nothing is wrong, at one quick look

/// Whether the number of two bytes lies in -m..m.
fn near(s: &[u8], i: usize, m: usize) -> bool {
    (word(s, i) + m) % 65_536 <= 2 * m
}

fn is_bare(body: &[u8], i: usize) -> bool {
    body[4 * i + 1] == 0 && word(body, 4 * i + 2) == 0
}

fn is_weight(body: &[u8], i: usize) -> bool {
    body[4 * i + 1] == 0 && word(body, 4 * i + 2) != 0 && near(body, 4 * i + 2, 1_000)
}

fn is_literal(body: &[u8], i: usize) -> bool {
    matches!(body[4 * i + 1], 1 | 2) && near(body, 4 * i + 2, 30_000)
}

/// Takes the variable of term i into the set of those before it: whether it is declared and new.
fn is_new(variables: usize, seen: &mut [u64; WORDS], body: &[u8], i: usize) -> bool {
    let x = body[4 * i] as usize;
    if variables <= x || bit(seen, x) {
        return false;
    }
    seen[x / 64] |= 1 << (x % 64);
    true
}

fn are_bare(variables: usize, seen: &mut [u64; WORDS], body: &[u8]) -> bool {
    (0..body.len() / 4).all(|i| is_bare(body, i) && is_new(variables, seen, body, i))
}

fn are_weights(variables: usize, seen: &mut [u64; WORDS], body: &[u8]) -> bool {
    (0..body.len() / 4).all(|i| is_weight(body, i) && is_new(variables, seen, body, i))
}

fn are_literals(variables: usize, seen: &mut [u64; WORDS], body: &[u8], from: usize) -> bool {
    (from..body.len() / 4).all(|i| is_literal(body, i) && is_new(variables, seen, body, i))
}

fn is_low_fine(file: &[u8], x: u8) -> bool {
    0 <= low(file, x as usize)
}

fn is_faultless(file: &[u8], variables: usize, body: &[u8], form: u8) -> bool {
    let mut seen = [0; WORDS];
    match (form, body.len() / 4) {
        (1, ..=TERMS) => are_weights(variables, &mut seen, body),
        (2 | 3, 1..=TERMS) | (5, 1) => are_bare(variables, &mut seen, body),
        (4, 2) => are_bare(variables, &mut seen, body) && is_low_fine(file, body[0]) && is_low_fine(file, body[4]),
        (6, 1..=TERMS) => are_literals(variables, &mut seen, body, 0),
        (7, 2..=TERMS) => is_bare(body, 0) && is_new(variables, &mut seen, body, 0) && are_literals(variables, &mut seen, body, 1),
        _ => false,
    }
}

fn terms_fit(len: usize, header: usize, most: usize) -> bool {
    len >= header && (len - header) % 4 == 0 && (len - header) / 4 <= most
}

fn check_variable(v: &[u8]) -> u8 {
    if v.len() != 5 {
        6
    } else if v[0] > 2 {
        7
    } else if beyond(number(v, 1), 30_000) || beyond(number(v, 3), 30_000) || number(v, 1) > number(v, 3) {
        8
    } else {
        0
    }
}

fn wrong_head(file: &[u8], variables: usize, head: usize) -> bool {
    head >= variables || !is_founded(file, head)
}

/// A rule of a right length and of another form than 8.
fn check_rule_parts(file: &[u8], variables: usize, v: &[u8]) -> u8 {
    let (form, head, c) = (v[0], v[1] as usize, number(v, 2));
    let body = body(v);
    let own = [form == 0 || form > 8, beyond(c, 30_000), wrong_head(file, variables, head)];
    body_refusal(file, variables, form, body, own, wrong_count(form, body.len() / 4))
}

/// A rule of a right length and of form 8.
fn check_divided_parts(file: &[u8], variables: usize, v: &[u8]) -> u8 {
    let (head, c) = (v[1] as usize, number(v, 2));
    let (part, body) = (divisor_part(v), body(v));
    let (wrong, outside) = divisor_faults(part);
    let own = [wrong, beyond(c, 30_000) | outside, wrong_head(file, variables, head)];
    let missing = part.len() / 4 != 1;
    body_refusal(file, variables, 1, body, own, missing | wrong_count(1, body.len() / 4))
}

/// The same at one quick look.
fn is_sound_rule(file: &[u8], variables: usize, v: &[u8]) -> bool {
    let body = body(v);
    !beyond(number(v, 2), 30_000) && !wrong_head(file, variables, v[1] as usize) && is_faultless(file, variables, body, v[0])
}

fn is_sound_divided(file: &[u8], variables: usize, v: &[u8]) -> bool {
    let (part, body) = (divisor_part(v), body(v));
    part.len() / 4 == 1
        && divisor_faults(part) == (false, false)
        && !beyond(number(v, 2), 30_000)
        && !wrong_head(file, variables, v[1] as usize)
        && is_faultless(file, variables, body, 1)
}

/// A rule of form 8.
fn check_divided(file: &[u8], variables: usize, v: &[u8]) -> u8 {
    if !terms_fit(v.len(), 4, 1 + TERMS) {
        return 6;
    }
    if is_sound_divided(file, variables, v) {
        return 0;
    }
    check_divided_parts(file, variables, v)
}

fn check_rule(file: &[u8], variables: usize, v: &[u8]) -> u8 {
    if v.len() < 4 {
        return 6;
    }
    if v[0] == 8 {
        return check_divided(file, variables, v);
    }
    if !terms_fit(v.len(), 4, TERMS) {
        return 6;
    }
    if is_sound_rule(file, variables, v) {
        return 0;
    }
    check_rule_parts(file, variables, v)
}

/// The rule form whose terms a constraint's form has.
fn body_form(form: u8) -> u8 {
    match form {
        1 => 1,
        2 => 6,
        _ => 0,
    }
}

fn wrong_constraint(form: u8, c: i64) -> bool {
    match form {
        1 => false,
        2 => c != 0,
        _ => true,
    }
}

/// A constraint of a right length.
fn check_constraint_parts(file: &[u8], variables: usize, v: &[u8]) -> u8 {
    let (c, body, form) = (number(v, 1), &v[3..], body_form(v[0]));
    let own = [wrong_constraint(v[0], c), beyond(c, 30_000), false];
    body_refusal(file, variables, form, body, own, wrong_count(form, body.len() / 4))
}

fn is_sound_constraint(file: &[u8], variables: usize, v: &[u8]) -> bool {
    let (c, body) = (number(v, 1), &v[3..]);
    !beyond(c, 30_000) && !wrong_constraint(v[0], c) && is_faultless(file, variables, body, body_form(v[0]))
}

fn check_constraint(file: &[u8], variables: usize, v: &[u8]) -> u8 {
    if !terms_fit(v.len(), 3, TERMS) {
        return 6;
    }
    if is_sound_constraint(file, variables, v) {
        return 0;
    }
    check_constraint_parts(file, variables, v)
}

fn check_value(file: &[u8], v: &[u8], tag: u8, variables: usize) -> u8 {
    match tag {
        1 => check_variable(v),
        2 => check_rule(file, variables, v),
        _ => check_constraint(file, variables, v),
    }
}

fn field_refusal(file: &[u8], at: usize, before: u8, k: Counts) -> u8 {
    if at + 3 > file.len() || at + 3 + word(file, at + 1) > file.len() {
        return 2;
    }
    let (tag, len) = (file[at], word(file, at + 1));
    if tag == 0 || tag > 3 {
        return 3;
    }
    if tag < before {
        return 4;
    }
    let full = match tag {
        1 => k.variables == VARIABLES,
        2 => k.rules == RULES,
        _ => k.constraints == CONSTRAINTS,
    };
    if full {
        return 5;
    }
    check_value(file, &file[at + 3..at + 3 + len], tag, k.variables)
}

#[derive(Clone, Copy, PartialEq, Eq)]
enum Direction {
    Rising,
    Falling,
    Mixed,
}

/// A plain term, by the form of its rule: which way what the rule gives goes with it.
fn plain_direction(file: &[u8], form: u8, t: &[u8]) -> Direction {
    match form {
        1 | 8 if number(t, 2) < 0 => Direction::Falling,
        5 => {
            let x = t[0] as usize;
            if low(file, x) >= 0 {
                Direction::Rising
            } else if high(file, x) <= 0 {
                Direction::Falling
            } else {
                Direction::Mixed
            }
        }
        _ => Direction::Rising,
    }
}

/// A direction, turned where moving away from the variable's starting end is moving down.
fn away(file: &[u8], x: usize, d: Direction) -> Direction {
    if !is_from_above(file, x) {
        return d;
    }
    match d {
        Direction::Rising => Direction::Falling,
        Direction::Falling => Direction::Rising,
        Direction::Mixed => Direction::Mixed,
    }
}

/// A position, by the op of its term.
fn direction(file: &[u8], v: &[u8], i: usize) -> Direction {
    let t = &body(v)[4 * i..4 * i + 4];
    match t[1] {
        0 => away(file, v[1] as usize, plain_direction(file, v[0], t)),
        1 => Direction::Rising,
        2 => Direction::Falling,
        _ => Direction::Mixed,
    }
}

/// Whether the reduct keeps the variable where it pushes this way.
fn is_kept(file: &[u8], x: usize, d: Direction) -> bool {
    let more = away(file, x, d) == Direction::Rising;
    more & is_founded(file, x)
}

fn rule_value(file: &[u8], at: usize) -> &[u8] {
    &file[at + 3..at + 3 + word(file, at + 1)]
}

// ---- idle rules: they give nothing, or no more than their head's starting end, whatever values their variables have in their ranges

/// Of the values from low to high one that is furthest from 0.
fn furthest(low: i64, high: i64) -> i64 {
    if low.abs() < high.abs() {
        high
    } else {
        low
    }
}

/// Of the values from low to high the one that is nearest to 0.
fn nearest(low: i64, high: i64) -> i64 {
    if 0 < low {
        return low;
    }
    if high < 0 {
        high
    } else {
        0
    }
}

/// The value from low to high at which a position that pushes this way makes a rule demand most; `above` where its head is founded from above.
fn demanding(above: bool, d: Direction, low: i64, high: i64) -> i64 {
    if d == Direction::Mixed {
        return if above { nearest(low, high) } else { furthest(low, high) };
    }
    if d == Direction::Rising {
        high
    } else {
        low
    }
}

fn set_position(values: &mut Values, file: &[u8], v: &[u8], above: bool, i: usize) {
    let x = body(v)[4 * i] as usize;
    let d = direction(file, v, i);
    values[x] = demanding(above, d, low(file, x), high(file, x));
}

/// Gives every variable of the body that value.
fn set_most(values: &mut Values, file: &[u8], v: &[u8], above: bool) {
    for i in 0..positions(v) {
        set_position(values, file, v, above, i);
    }
}

/// Whether what is given is nothing or no more than the starting end of a head.
fn is_no_more(file: &[u8], head: usize, given: Option<i64>) -> bool {
    let Some(a) = given else { return true };
    !is_before(file, head, start(file, head), a)
}

/// Whether the size in a field's value is idle.
fn is_idle_size(file: &[u8], v: &[u8]) -> bool {
    let (x, head) = (body(v)[0] as usize, v[1] as usize);
    let d = direction(file, v, 0);
    let most = demanding(is_from_above(file, head), d, low(file, x), high(file, x));
    is_no_more(file, head, Some(number(v, 2) + most.abs()))
}

/// Whether the rule in a field's value is idle. The values are lent for it.
fn is_idle(values: &mut Values, file: &[u8], v: &[u8]) -> bool {
    let head = v[1] as usize;
    set_most(values, file, v, is_from_above(file, head));
    let most = gives(v, 0, values, values);
    is_no_more(file, head, most)
}

// ---- validity

/// Whether a rule offends by the rows; only sizes have mixed positions, and only one with a mixed variable in its head's component is asked whether it
/// is idle.
fn offends(rows: &[u64], values: &mut Values, file: &[u8], v: &[u8]) -> bool {
    if v[0] != 5 {
        return false;
    }
    let mixed = |i: usize| direction(file, v, i) == Direction::Mixed && share(rows, v[1] as usize, body(v)[4 * i] as usize);
    if !(0..positions(v)).fold(false, |found, i| found | mixed(i)) {
        return false;
    }
    !is_idle(values, file, v)
}

/// The rules' values, each with the place of its field.
pub fn rules(file: &[u8], k: Counts) -> impl Iterator<Item = (usize, &[u8])> {
    let mut next = 8 * k.variables;
    (0..k.rules).map(move |_| {
        let at = next;
        let v = rule_value(file, at);
        next += 3 + v.len();
        (at, v)
    })
}

/// Whether a rule has a mixed position and is not idle.
fn acts_mixed(file: &[u8], v: &[u8]) -> bool {
    if v[0] != 5 {
        return false;
    }
    if !(0..positions(v)).fold(false, |found, i| found | (direction(file, v, i) == Direction::Mixed)) {
        return false;
    }
    !is_idle_size(file, v)
}

fn any_acting(file: &[u8], k: Counts) -> bool {
    rules(file, k).any(|(_, v)| acts_mixed(file, v))
}

/// The place of the first rule that is not idle and has a mixed variable in its head's component.
fn first_offending(file: &[u8], k: Counts) -> Option<usize> {
    if !any_acting(file, k) {
        return None;
    }
    let mut rows = [0; WORDS * VARIABLES];
    let mut values = [0; VARIABLES];
    mark_edges(&mut rows, &mut values, file, k);
    close(&mut rows, k.variables);
    rules(file, k).find(|(_, v)| offends(&rows, &mut values, file, v)).map(|(at, _)| at)
}

/// The fields alone: the refusals up to 12.
fn scan(file: &[u8]) -> Result<Counts, (usize, usize)> {
    if file.len() > MAX_FILE {
        return Err((1, 0));
    }
    let mut k = Counts { variables: 0, rules: 0, constraints: 0 };
    let (mut at, mut before) = (0, 0);
    while at < file.len() {
        let why = field_refusal(file, at, before, k);
        if why != 0 {
            return Err((why as usize, at));
        }
        before = file[at];
        match before {
            1 => k.variables += 1,
            2 => k.rules += 1,
            _ => k.constraints += 1,
        }
        at += 3 + word(file, at + 1);
    }
    Ok(k)
}

pub fn read(file: &[u8]) -> Result<Counts, (usize, usize)> {
    let k = scan(file)?;
    match first_offending(file, k) {
        Some(at) => Err((13, at)),
        None => Ok(k),
    }
}

// ---- the meaning

fn holds(t: &[u8], value: i64) -> bool {
    match t[1] {
        1 => value >= number(t, 2),
        2 => value < number(t, 2),
        _ => true,
    }
}

pub type Values = [i64; VARIABLES];

/// a over d, rounded up.
fn over_up(a: i64, d: i64) -> i64 {
    if d == 1 {
        return a;
    }
    if a < 0 {
        a / d
    } else {
        (a + (d - 1)) / d
    }
}

/// The larger of two where `most` says so, else the smaller.
fn extreme(most: bool, a: i64, b: i64) -> i64 {
    let above = most & (a < b);
    let below = !most & (b < a);
    if above | below {
        b
    } else {
        a
    }
}

/// What the rule in a field's value gives, kept positions read in the model.
pub fn gives(v: &[u8], mask: u32, model: &Values, assigned: &Values) -> Option<i64> {
    let (form, c) = (v[0], number(v, 2));
    let body = body(v);
    let terms = body.len() / 4;
    let at = |i: usize| {
        let x = body[4 * i] as usize;
        if mask >> i & 1 == 1 {
            model[x]
        } else {
            assigned[x]
        }
    };
    let sum = || c + (0..terms).map(|i| number(body, 4 * i + 2) * at(i)).sum::<i64>();
    let divided = |divisor: i64| over_up(sum(), divisor);
    let all = || (0..terms).all(|i| holds(&body[4 * i..4 * i + 4], at(i)));
    let pick = |most: bool| (1..terms).fold(at(0), |found, i| extreme(most, found, at(i)));
    if form == 8 {
        return Some(divided(divisor(v)));
    }
    match form {
        1 => Some(sum()),
        2 => Some(c + pick(true)),
        3 => Some(c + pick(false)),
        4 => Some(c + at(0) * at(1)),
        5 => Some(c + at(0).abs()),
        6 => all().then_some(c),
        _ => all().then_some(c + at(0)),
    }
}

fn satisfied(v: &[u8], values: &Values) -> bool {
    let body = &v[3..];
    let terms = body.len() / 4;
    if v[0] == 1 {
        let sum: i64 = (0..terms).map(|i| number(body, 4 * i + 2) * values[body[4 * i] as usize]).sum();
        number(v, 1) + sum <= 0
    } else {
        (0..terms).any(|i| holds(&body[4 * i..4 * i + 4], values[body[4 * i] as usize]))
    }
}

struct Tables {
    offsets: [usize; RULES],
    masks: [u32; RULES],
    readers: [u64; VARIABLES * ROW],
    end: usize,
}

fn tables(file: &[u8], k: Counts) -> Tables {
    let mut t = Tables { offsets: [0; RULES], masks: [0; RULES], readers: [0; VARIABLES * ROW], end: 8 * k.variables };
    for i in 0..k.rules {
        let v = rule_value(file, t.end);
        t.offsets[i] = t.end;
        for j in 0..positions(v) {
            let x = body(v)[4 * j] as usize;
            if is_kept(file, x, direction(file, v, j)) {
                t.masks[i] |= 1 << j;
                t.readers[x * ROW + i / 64] |= 1 << (i % 64);
            }
        }
        t.end += 3 + v.len();
    }
    t
}

/// The bit of a rule's mask that says that the rule gives what lifts of its head stop at.
const FREE: u32 = 31;

/// What is given to a head where lifts stop, if `cut` says that they do: the stop itself where the mask says so, else no more.
fn stop_at(cut: bool, file: &[u8], head: usize, stop: i64, mask: u32, given: Option<i64>) -> Option<i64> {
    if !cut {
        return given;
    }
    if mask >> FREE & 1 == 1 {
        return Some(stop);
    }
    let a = given?;
    if is_before(file, head, stop, a) {
        Some(stop)
    } else {
        Some(a)
    }
}

/// The values that a run reads beside its model: standard ones, those at positions that are not read in the model, and where lifts stop, if they do.
#[derive(Clone, Copy)]
struct Ends<'a> {
    assigned: &'a Values,
    others: &'a Values,
    stops: &'a Values,
    cut: bool,
}

/// The values reach the least model, or a rule asks for more than its head's range has.
fn reckon(file: &[u8], k: Counts, t: &Tables, ends: Ends, model: &mut Values) -> bool {
    let Ends { assigned, others, stops, cut } = ends;
    for v in 0..k.variables {
        model[v] = if is_founded(file, v) { start(file, v) } else { assigned[v] };
    }
    let mut waiting = [0u64; ROW];
    for i in 0..k.rules {
        waiting[i / 64] |= 1 << (i % 64);
    }
    while let Some(i) = next_bit(&waiting, 0) {
        waiting[i / 64] -= 1 << (i % 64);
        let v = rule_value(file, t.offsets[i]);
        let head = v[1] as usize;
        let mask = t.masks[i];
        if let Some(a) = stop_at(cut, file, head, stops[head], mask, gives(v, mask, model, others)) {
            if is_before(file, head, model[head], a) {
                if is_before(file, head, far(file, head), a) {
                    return false;
                }
                model[head] = a;
                for (w, r) in waiting.iter_mut().zip(&t.readers[head * ROW..(head + 1) * ROW]) {
                    *w |= r;
                }
            }
        }
    }
    true
}

fn run(file: &[u8], k: Counts, t: &Tables, assigned: &Values, model: &mut Values) -> bool {
    reckon(file, k, t, Ends { assigned, others: assigned, stops: assigned, cut: false }, model)
}

fn open(file: &[u8], assignment: &[u8], room: usize, bytes: usize) -> Result<Counts, u64> {
    let k = read(file).map_err(|(n, at)| pack(6, n, at, 0))?;
    if assignment.len() != 2 * k.variables {
        return Err(pack(6, 14, 0, 0));
    }
    if room < bytes * k.variables {
        return Err(pack(6, 15, 0, 0));
    }
    Ok(k)
}

pub fn load(assignment: &[u8]) -> Values {
    let mut values = [0; VARIABLES];
    for v in 0..assignment.len() / 2 {
        values[v] = number(assignment, 2 * v);
    }
    values
}

fn first_outside(file: &[u8], k: Counts, values: &Values) -> Option<usize> {
    (0..k.variables).find(|&v| values[v] < low(file, v) || values[v] > high(file, v))
}

pub fn read_call(file: &[u8]) -> u64 {
    match read(file) {
        Ok(k) => pack(7, k.variables, k.rules, k.constraints),
        Err((n, at)) => pack(6, n, at, 0),
    }
}

fn write_values(values: &Values, variables: usize, buffer: &mut [u8]) {
    for v in 0..variables {
        buffer[2 * v..2 * v + 2].copy_from_slice(&(values[v] as i16).to_be_bytes());
    }
}

pub fn least_call(file: &[u8], assignment: &[u8], buffer: &mut [u8]) -> u64 {
    let k = match open(file, assignment, buffer.len(), 2) {
        Ok(k) => k,
        Err(e) => return e,
    };
    let assigned = load(assignment);
    if let Some(v) = first_outside(file, k, &assigned) {
        return pack(5, v, 0, 0);
    }
    let t = tables(file, k);
    let mut model = [0; VARIABLES];
    if !run(file, k, &t, &assigned, &mut model) {
        return pack(9, 0, 0, 0);
    }
    write_values(&model, k.variables, buffer);
    pack(8, 0, 0, 0)
}

fn put(report: &mut [u8], i: usize, v: usize, mark: u8, z: i64) {
    report[4 * i] = v as u8;
    report[4 * i + 1] = mark;
    report[4 * i + 2..4 * i + 4].copy_from_slice(&(z as i16).to_be_bytes());
}

/// For each variable an entry with the first mark where the first set has it, then one with the second where the second has it.
fn put_marked(report: &mut [u8], first: (&[u64; 4], u8), second: (&[u64; 4], u8), values: &Values) {
    let either: [u64; 4] = std::array::from_fn(|w| first.0[w] | second.0[w]);
    let (mut from, mut i) = (0, 0);
    while let Some(v) = next_bit(&either, from) {
        for (set, mark) in [first, second] {
            if bit(set, v) {
                put(report, i, v, mark, values[v]);
                i += 1;
            }
        }
        from = v + 1;
    }
}

pub fn check_call(file: &[u8], assignment: &[u8], report: &mut [u8]) -> u64 {
    let k = match open(file, assignment, report.len(), 12) {
        Ok(k) => k,
        Err(e) => return e,
    };
    let assigned = load(assignment);
    if let Some(v) = first_outside(file, k, &assigned) {
        return pack(5, v, 0, 0);
    }
    let t = tables(file, k);
    for i in 0..k.rules {
        let v = rule_value(file, t.offsets[i]);
        let head = v[1] as usize;
        if gives(v, 0, &assigned, &assigned).is_some_and(|a| is_before(file, head, assigned[head], a)) {
            return pack(4, i, 0, 0);
        }
    }
    let mut at = t.end;
    for i in 0..k.constraints {
        let v = rule_value(file, at);
        if !satisfied(v, &assigned) {
            return pack(3, i, 0, 0);
        }
        at += 3 + v.len();
    }
    let mut model = [0; VARIABLES];
    run(file, k, &t, &assigned, &mut model);
    shown(file, k, &t, &assigned, &model, report)
}

fn shown(file: &[u8], k: Counts, t: &Tables, assigned: &Values, model: &Values, report: &mut [u8]) -> u64 {
    let (mut below, mut above) = ([0u64; 4], [0u64; 4]);
    for v in 0..k.variables {
        let short = is_founded(file, v) & is_before(file, v, model[v], assigned[v]);
        let down = is_from_above(file, v);
        if short & !down {
            below[v / 64] |= 1 << (v % 64);
        }
        if short & down {
            above[v / 64] |= 1 << (v % 64);
        }
    }
    let set: [u64; 4] = std::array::from_fn(|w| below[w] | above[w]);
    if count(&set) == 0 {
        return pack(1, 0, 0, 0);
    }
    let (mut most, mut least) = ([0u64; 4], [0u64; 4]);
    for i in 0..k.rules {
        let v = rule_value(file, t.offsets[i]);
        if !bit(&set, v[1] as usize) {
            continue;
        }
        for j in 0..positions(v) {
            let x = body(v)[4 * j] as usize;
            let except = t.masks[i] >> j & 1 == 1 && bit(&set, x);
            let d = direction(file, v, j);
            if d == Direction::Mixed || d == Direction::Rising && !except {
                most[x / 64] |= 1 << (x % 64);
            }
            if d == Direction::Mixed || d == Direction::Falling && !except {
                least[x / 64] |= 1 << (x % 64);
            }
        }
    }
    let bounds = count(&below) + count(&above);
    put_marked(report, (&below, 0), (&above, 3), model);
    put_marked(&mut report[4 * bounds..], (&most, 1), (&least, 2), assigned);
    pack(2, bounds, count(&most) + count(&least), 0)
}
