//! Reading. A field that is in order takes the short way; one that is not ends the reading, and `why` finds its number.
use super::graph::Graph;
use super::run::{more, Values};

pub const BYTES: usize = 60_000;
pub const VARIABLES: usize = 256;
pub const RULES: usize = 2_048;
const CONSTRAINTS: usize = 512;
pub const TERMS: usize = 16;

/// A variable's whole field, and a term: variable, op, number.
pub type Variable = [u8; 8];
pub type Term = [u8; 4];

/// Only form 8 has a divisor, which stands beside the terms, and is only asked for there. `down` where the head is founded from above.
#[derive(Clone, Copy)]
pub struct Rule<'a> {
    pub form: u8,
    pub head: u8,
    pub down: bool,
    pub c: i16,
    pub divisor: i16,
    pub terms: &'a [Term],
}

#[derive(Clone, Copy)]
pub struct Constraint<'a> {
    pub form: u8,
    pub c: i16,
    pub terms: &'a [Term],
}

pub struct Refusal {
    pub number: usize,
    pub place: usize,
}

pub struct Counted<'a> {
    pub variables: &'a [Variable],
    pub rules: usize,
    pub constraints: usize,
}

pub struct Program<'a> {
    pub variables: &'a [Variable],
    pub rules: Vec<Rule<'a>>,
    pub constraints: Vec<Constraint<'a>>,
}

/// Where variables, rules and constraints go as they are read.
pub trait Sink<'a> {
    fn variables(&mut self, _variables: &'a [Variable]) {}
    /// So many bytes are left for rules, and then for constraints.
    fn room(&mut self, _rules: usize, _constraints: usize) {}
    fn rule(&mut self, _rule: Rule<'a>) {}
    fn constraint(&mut self, _constraint: Constraint<'a>) {}
}

/// Keeps nothing.
pub struct Skip;

impl<'a> Sink<'a> for Skip {}

impl<'a> Sink<'a> for Program<'a> {
    fn variables(&mut self, variables: &'a [Variable]) {
        self.variables = variables;
    }

    fn room(&mut self, rules: usize, constraints: usize) {
        self.rules.reserve((rules / 11).min(RULES));
        self.constraints.reserve((constraints / 10).min(CONSTRAINTS));
    }

    fn rule(&mut self, rule: Rule<'a>) {
        self.rules.push(rule);
    }

    fn constraint(&mut self, constraint: Constraint<'a>) {
        self.constraints.push(constraint);
    }
}

impl<'a> Program<'a> {
    pub fn read(file: &'a [u8]) -> Result<Program<'a>, Refusal> {
        let mut program = Program { variables: &[], rules: Vec::new(), constraints: Vec::new() };
        read(file, &mut program)?;
        Ok(program)
    }
}

pub fn founded(v: &Variable) -> bool {
    v[3] != 0
}

pub fn from_above(v: &Variable) -> bool {
    v[3] == 2
}

pub fn low(v: &Variable) -> i16 {
    i16::from_be_bytes([v[4], v[5]])
}

pub fn high(v: &Variable) -> i16 {
    i16::from_be_bytes([v[6], v[7]])
}

pub fn number(t: &Term) -> i16 {
    i16::from_be_bytes([t[2], t[3]])
}

fn within(z: i16) -> bool {
    (-30_000..=30_000).contains(&z)
}

fn coefficient(z: i16) -> bool {
    (-1_000..=1_000).contains(&z) && z != 0
}

fn variable_in_order(v: &Variable) -> bool {
    v[..3] == [1, 0, 5] && v[3] <= 2 && low(v) >= -30_000 && high(v) <= 30_000 && low(v) <= high(v)
}

/// The number of a divisor that is in order.
fn divisor(t: &Term) -> Option<i16> {
    let d = number(t);
    (t[..2] == [0, 3] && (1..=1_000).contains(&d)).then_some(d)
}

/// What stands before the terms of a whole field of this tag, at most so many terms, and the bytes after it; the length of such a field takes one
/// byte.
fn value(rest: &[u8], tag: u8, before_terms: usize, most: usize) -> Option<(&[u8], &[Term], &[u8])> {
    let [t, 0, length, tail @ ..] = rest else { return None };
    let length = *length as usize;
    if *t != tag || length < before_terms || length > before_terms + 4 * most || length > tail.len() {
        return None;
    }
    let (value, after) = tail.split_at(length);
    let (start, body) = value.split_at(before_terms);
    let (terms, over) = body.as_chunks();
    over.is_empty().then_some((start, terms, after))
}

/// A mixed place that may offend: the number of bytes from the rule's field on, its head and its variable. Those of idle rules and of standard
/// variables, which head no rule, are left out.
pub type Mixed = (usize, u8, u8);

struct Bodies<'a> {
    variables: &'a [Variable],
    /// The last body in which a variable stood.
    stood: [u16; VARIABLES],
    body: u16,
    mixed: Vec<Mixed>,
}

impl Bodies<'_> {
    /// Declared variables, none twice in this body, and each term as the form asks.
    fn terms(&mut self, terms: &[Term], fits: impl Fn(&Term) -> bool) -> bool {
        let mut fine = true;
        for t in terms {
            let x = t[0] as usize;
            fine &= fits(t) & (x < self.variables.len()) & (self.stood[x] != self.body);
            self.stood[x] = self.body;
        }
        fine
    }

    fn sum(&mut self, terms: &[Term]) -> bool {
        self.terms(terms, |t| (t[1] == 0) & coefficient(number(t)))
    }

    fn plain(&mut self, terms: &[Term]) -> bool {
        self.terms(terms, |t| t[1..] == [0, 0, 0])
    }

    fn literals(&mut self, terms: &[Term]) -> bool {
        self.terms(terms, |t| (t[1].wrapping_sub(1) < 2) & within(number(t)))
    }

    /// The divisor of a rule that has one is taken out of its terms.
    fn rule(&mut self, rule: &mut Rule, left: usize) -> bool {
        self.body += 1;
        let terms = rule.terms;
        let head = self.variables.get(rule.head as usize).is_some_and(founded);
        head && within(rule.c)
            && match (rule.form, terms.len()) {
                (1, ..=TERMS) => self.sum(terms),
                (2 | 3, 1..=TERMS) => self.plain(terms),
                (4, 2) => self.plain(terms) && terms.iter().all(|t| low(&self.variables[t[0] as usize]) >= 0),
                (5, 1) => {
                    let fine = self.plain(terms);
                    if fine && may_offend(self.variables, rule) {
                        self.mixed.push((left, rule.head, terms[0][0]));
                    }
                    fine
                }
                (6, 1..=TERMS) => self.literals(terms),
                (7, 2..=TERMS) => self.plain(&terms[..1]) && self.literals(&terms[1..]),
                (8, 1..) => {
                    rule.terms = &terms[1..];
                    divisor(&terms[0]).is_some_and(|d| {
                        rule.divisor = d;
                        self.sum(rule.terms)
                    })
                }
                _ => false,
            }
    }

    fn constraint(&mut self, constraint: &Constraint) -> bool {
        self.body += 1;
        match (constraint.form, constraint.terms.len()) {
            (1, _) => within(constraint.c) && self.sum(constraint.terms),
            (2, 1..) => constraint.c == 0 && self.literals(constraint.terms),
            _ => false,
        }
    }
}

/// A rule with its divisor, where it has one, still among its terms.
fn rule<'a>(variables: &[Variable], start: &[u8], terms: &'a [Term]) -> Rule<'a> {
    let down = variables.get(start[1] as usize).is_some_and(from_above);
    Rule { form: start[0], head: start[1], down, c: i16::from_be_bytes([start[2], start[3]]), divisor: 1, terms }
}

pub fn read<'a>(file: &'a [u8], to: &mut impl Sink<'a>) -> Result<Counted<'a>, Refusal> {
    let (n, mixed) = fields(file, to)?;
    match first_offending(n.variables, [&file[8 * n.variables.len()..], &[]], &mixed) {
        Some(left) => Err(Refusal { number: 13, place: file.len() - left }),
        None => Ok(n),
    }
}

/// The fields alone: the refusals up to 12.
pub fn fields<'a>(file: &'a [u8], to: &mut impl Sink<'a>) -> Result<(Counted<'a>, Vec<Mixed>), Refusal> {
    let (n, mixed, rest) = fields_in_order(file, to)?;
    if !rest.is_empty() {
        return Err(Refusal { number: why(rest, &n), place: file.len() - rest.len() });
    }
    Ok((n, mixed))
}

/// The fields before the first that is not in order, and the bytes from that one on.
pub fn fields_in_order<'a>(file: &'a [u8], to: &mut impl Sink<'a>) -> Result<(Counted<'a>, Vec<Mixed>, &'a [u8]), Refusal> {
    if file.len() > BYTES {
        return Err(Refusal { number: 1, place: 0 });
    }
    let fields = file.as_chunks().0;
    let count = fields.iter().take(VARIABLES).take_while(|v| variable_in_order(v)).count();
    let variables = &fields[..count];
    let mut n = Counted { variables, rules: 0, constraints: 0 };
    let mut bodies = Bodies { variables, stood: [0; VARIABLES], body: 0, mixed: Vec::new() };
    let mut rest = &file[8 * count..];
    to.variables(variables);
    to.room(rest.len(), 0);
    while let Some((start, terms, after)) = value(rest, 2, 4, TERMS + 1) {
        let mut rule = rule(variables, start, terms);
        if n.rules == RULES || !bodies.rule(&mut rule, rest.len()) {
            break;
        }
        to.rule(rule);
        n.rules += 1;
        rest = after;
    }
    to.room(0, rest.len());
    while let Some((start, terms, after)) = value(rest, 3, 3, TERMS) {
        let constraint = Constraint { form: start[0], c: i16::from_be_bytes([start[1], start[2]]), terms };
        if n.constraints == CONSTRAINTS || !bodies.constraint(&constraint) {
            break;
        }
        to.constraint(constraint);
        n.constraints += 1;
        rest = after;
    }
    Ok((n, bodies.mixed, rest))
}

/// Whether a place makes its rule demand more where it is larger, and whether it does where it is smaller. A literal does so whatever the head is.
pub fn directions(variables: &[Variable], rule: &Rule, i: usize) -> (bool, bool) {
    let t = &rule.terms[i];
    let falls = match rule.form {
        1 | 8 => rule.down ^ (number(t) < 0),
        5 => {
            let v = &variables[t[0] as usize];
            let (up, down) = (low(v) >= 0 || high(v) > 0, low(v) < 0);
            return if rule.down { (down, up) } else { (up, down) };
        }
        _ if t[1] != 0 => t[1] == 2,
        _ => rule.down,
    };
    (!falls, falls)
}

/// Whether a rule of form 5 is idle.
fn idle_size(variables: &[Variable], rule: &Rule) -> bool {
    let x = &variables[rule.terms[0][0] as usize];
    let head = &variables[rule.head as usize];
    let (low_x, high_x, c) = (low(x) as i32, high(x) as i32, rule.c as i32);
    if rule.down {
        c + low_x.max(-high_x).max(0) >= high(head) as i32
    } else {
        c + high_x.max(-low_x) <= low(head) as i32
    }
}

/// Whether a rule of form 5 has a founded variable at a mixed place and is not idle.
fn may_offend(variables: &[Variable], rule: &Rule) -> bool {
    let x = &variables[rule.terms[0][0] as usize];
    directions(variables, rule, 0) == (true, true) && founded(x) && !idle_size(variables, rule)
}

/// The lows and the highs of variables.
pub struct Ends {
    lows: Values,
    highs: Values,
}

impl Ends {
    pub fn of(variables: &[Variable]) -> Ends {
        let mut ends = Ends { lows: [0; VARIABLES], highs: [0; VARIABLES] };
        for (v, x) in variables.iter().enumerate() {
            (ends.lows[v], ends.highs[v]) = (low(x), high(x));
        }
        ends
    }

    /// A rule demands most where its rising places have their highs and its falling ones their lows.
    pub fn idle(&self, variables: &[Variable], rule: &Rule) -> bool {
        let start = if rule.down { &self.highs } else { &self.lows };
        match rule.form {
            5 => idle_size(variables, rule),
            _ => more(variables, rule, &self.highs, &self.lows, start[rule.head as usize]).is_none(),
        }
    }
}

/// The first rule with a mixed variable in its head's component, by the number of bytes from its field on. The rules are those that two stretches
/// begin with.
pub fn first_offending(variables: &[Variable], stretches: [&[u8]; 2], mixed: &[Mixed]) -> Option<usize> {
    if mixed.is_empty() {
        return None;
    }
    let mut graph = Graph::new(variables.len());
    let ends = Ends::of(variables);
    for mut rest in stretches {
        while let Some((start, terms, after)) = value(rest, 2, 4, TERMS + 1) {
            rest = after;
            let mut rule = rule(variables, start, terms);
            if rule.form == 8 {
                (rule.divisor, rule.terms) = (number(&terms[0]), &terms[1..]);
            }
            if !ends.idle(variables, &rule) {
                draw(variables, &rule, |x, drawn| graph.edge_where(rule.head, x, drawn));
            }
        }
    }
    let places = graph.components();
    let component = |v: u8| places[v as usize].0;
    mixed.iter().find(|(_, head, x)| component(*head) == component(*x)).map(|(left, ..)| *left)
}

/// The edges of a rule that is not idle: each variable of its body, and whether its place is kept or mixed.
pub fn draw(variables: &[Variable], rule: &Rule, mut to: impl FnMut(u8, bool)) {
    // whether a place is kept that demands more where it is lower
    let kept = |t: &Term, lower: bool| variables[t[0] as usize][3] == 1 + u8::from(lower);
    let literal = |t: &Term| kept(t, t[1] == 2);
    let terms = rule.terms.iter();
    match rule.form {
        1 | 8 => terms.for_each(|t| to(t[0], kept(t, rule.down ^ (number(t) < 0)))),
        5 => {
            let (rises, falls) = directions(variables, rule, 0);
            terms.for_each(|t| to(t[0], rises & falls | kept(t, falls)));
        }
        6 => terms.for_each(|t| to(t[0], literal(t))),
        7 => terms.for_each(|t| to(t[0], if t[1] == 0 { kept(t, rule.down) } else { literal(t) })),
        _ => terms.for_each(|t| to(t[0], kept(t, rule.down))),
    }
}

/// The number of the first refusal from 2 to 12 of the field at the start of `rest`, after so many fields.
#[cold]
pub fn why(rest: &[u8], n: &Counted) -> usize {
    let [tag, long, short, tail @ ..] = rest else { return 2 };
    let length = 256 * *long as usize + *short as usize;
    if length > tail.len() {
        return 2;
    }
    let value = &tail[..length];
    let declared = n.variables.len();
    let before = if n.constraints > 0 {
        3
    } else if n.rules > 0 {
        2
    } else {
        u8::from(declared > 0)
    };
    let (full, start) = match tag {
        1 => (declared == VARIABLES, 5),
        2 => (n.rules == RULES, 4),
        3 => (n.constraints == CONSTRAINTS, 3),
        _ => return 3,
    };
    if *tag < before {
        return 4;
    }
    if full {
        return 5;
    }
    let most = match (*tag, value) {
        (1, _) => 0,
        (2, [8, ..]) => TERMS + 1,
        _ => TERMS,
    };
    if length < start || length > start + 4 * most || (length - start) % 4 != 0 {
        return 6;
    }
    if *tag == 1 {
        return if value[0] > 2 { 7 } else { 8 };
    }
    let terms: &[Term] = value[start..].as_chunks().0;
    let c = i16::from_be_bytes([value[start - 2], value[start - 1]]);
    // A constraint's forms are those of a sum and of an if without a head; form 8 is a sum after its divisor.
    let (form, head) = match (*tag, value[0]) {
        (2, form @ 1..=8) => (form, Some(value[1] as usize)),
        (3, 1) => (1, None),
        (3, 2) if c == 0 => (6, None),
        _ => return 7,
    };
    let (form, first, terms) = match (form, terms) {
        (8, []) => (8, None, terms),
        (8, [first, terms @ ..]) => (1, Some(first), terms),
        _ => (form, None, terms),
    };
    let literal = |i: usize| form == 6 || form == 7 && i > 0;
    let wrong = |(i, t): (usize, &Term)| match literal(i) {
        true => t[1] != 1 && t[1] != 2,
        false => t[1] != 0 || form != 1 && number(t) != 0,
    };
    let outside = |(i, t): (usize, &Term)| if literal(i) { !within(number(t)) } else { form == 1 && !coefficient(number(t)) };
    let count = match form {
        1 => true,
        4 => terms.len() == 2,
        5 => terms.len() == 1,
        7 => terms.len() >= 2,
        _ => !terms.is_empty(),
    };
    if first.is_some_and(|t| t[..2] != [0, 3]) || terms.iter().enumerate().any(wrong) {
        7
    } else if !within(c) || first.is_some_and(|t| divisor(t).is_none()) || terms.iter().enumerate().any(outside) {
        8
    } else if head.is_some_and(|h| !n.variables.get(h).is_some_and(founded)) || terms.iter().any(|t| t[0] as usize >= declared) {
        9
    } else if !count {
        10
    } else if (0..terms.len()).any(|i| terms[..i].iter().any(|t| t[0] == terms[i][0])) {
        11
    } else {
        12
    }
}
