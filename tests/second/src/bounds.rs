//! Half-filled plans (document 02, wish 7). Each variable has a range inside its
//! declared one; how far can each founded variable still be lifted? From the declared
//! starting ends all rules are gone through again and again, kept variables read at
//! the bounds so far and all others at one end of their range, until nothing moves.

use crate::meaning::Direction;
use crate::program::*;
use crate::reader::{parse, parse_fields, Refusal};
use crate::wrong::Wrong;

#[derive(Clone, Copy, Debug, PartialEq, Eq)]
pub enum Bounded {
    Refused {
        number: usize,
        place: usize,
    },
    /// The bounds are written.
    Bounded,
}

/// Low and high of a lent range.
pub type Span = (i64, i64);

/// The most bytes that the program reads.
const INPUT_BYTES: usize = 2 + FILE_BYTES + 4 * VARIABLES;

pub fn bounds_with(file: &[u8], ranges: &[u8], buffer: &mut [u8], wrong: Wrong) -> Bounded {
    match open(file, ranges, buffer.len(), wrong) {
        Err(Refusal { number, place }) => {
            if let (Wrong::BoundsRefusedWrite, Some(first)) = (wrong, buffer.first_mut()) {
                *first ^= 1;
            }
            Bounded::Refused { number, place }
        }
        Ok(half) => {
            let bounds = half.bounds();
            if !half.unwritten(&bounds) {
                half.lay(&bounds, buffer);
            }
            Bounded::Bounded
        }
    }
}

/// What the program prints for this standard input.
pub fn print_bounds_with(input: &[u8], wrong: Wrong) -> Vec<u8> {
    let most = match wrong {
        Wrong::BoundsPrintLess => 61_000,
        Wrong::BoundsPrintOneLess => INPUT_BYTES - 1,
        Wrong::BoundsPrintOneMore => INPUT_BYTES + 1,
        _ => INPUT_BYTES,
    };
    let framed = 2 <= input.len() && input.len() <= most && unsigned(input, 0) <= input.len() - 2;
    if !framed {
        return b"refused 16 0\n".to_vec();
    }
    let (file, ranges) = input[2..].split_at(unsigned(input, 0));
    let mut buffer = [0; 2 * VARIABLES];
    if let Bounded::Refused { number, place } = bounds_with(file, ranges, &mut buffer, wrong) {
        return format!("refused {number} {place}\n").into_bytes();
    }
    let Ok(Program { variables, .. }) = parse_fields(file, wrong) else { return Vec::new() };
    let mut text = String::new();
    for (v, variable) in variables.iter().enumerate() {
        let bound = signed(&buffer, 2 * v);
        let word = match (variable.kind, wrong) {
            (_, Wrong::BoundsPrintMoved) if bound == variable.start() => continue,
            (Kind::Standard, Wrong::BoundsPrintStandard) => "most",
            (Kind::Standard, _) => continue,
            (Kind::Above, Wrong::BoundsPrintMost) => "most",
            (Kind::Below, _) => "most",
            (Kind::Above, _) => "least",
        };
        text += &format!("{word} {v} {bound}\n");
    }
    text.into_bytes()
}

/// A file and the range of each variable, inside its declared one.
struct Half {
    program: Program,
    lent: Vec<Span>,
}

/// The file and the ranges; or the refusal: the file's own, then 14, then 20, then 15.
fn open(file: &[u8], ranges: &[u8], room: usize, wrong: Wrong) -> Result<Half, Refusal> {
    let program = match wrong {
        Wrong::BoundsThirteenNever | Wrong::BoundsThirteenLast => parse_fields(file, wrong)?,
        _ => parse(file, wrong)?,
    };
    let lent: Vec<Span> = (0..program.variables.len()).map(|v| span(&program, ranges, v)).collect();
    let fourteen = fourteen(&program, ranges.len());
    let fifteen = fifteen(&program, room);
    let twenty = lent.iter().enumerate().position(|(v, &span)| twenty(&program, v, span));
    let place = |variable: usize| match wrong {
        Wrong::TwentyAtField => 8 * variable,
        Wrong::TwentyAtRange => 4 * variable,
        Wrong::TwentyAtVariable => variable,
        _ => 0,
    };
    let of_fourteen = if wrong == Wrong::BoundsFourteenHasPlace { ranges.len() } else { 0 };
    let of_fifteen = if wrong == Wrong::BoundsFifteenHasPlace { room } else { 0 };
    let mut order = [
        fourteen.then_some(Refusal { number: 14, place: of_fourteen }),
        twenty.map(|variable| Refusal { number: 20, place: place(variable) }),
        fifteen.then_some(Refusal { number: 15, place: of_fifteen }),
    ];
    match wrong {
        Wrong::TwentyBeforeFourteen => order.swap(0, 1),
        Wrong::FifteenBeforeTwenty => order.swap(1, 2),
        Wrong::FifteenBeforeBoth => order.rotate_right(1),
        _ => {}
    }
    if let Some(refusal) = order.into_iter().flatten().next() {
        return Err(refusal);
    }
    if wrong == Wrong::BoundsThirteenLast {
        parse(file, wrong)?;
    }
    Ok(Half { program, lent })
}

/// The lent range of a variable. Where ranges are too short for it, which matters to
/// wrong variants only, it is the declared one.
fn span(program: &Program, ranges: &[u8], v: usize) -> Span {
    let Variable { low, high, .. } = program.variables[v];
    let count = program.variables.len();
    let two = |at: usize| -> Option<i64> {
        let bytes = ranges.get(at..at + 2)?;
        Some(match program.wrong {
            Wrong::RangesLittle => signed(&[bytes[1], bytes[0]], 0),
            _ => signed(bytes, 0),
        })
    };
    let (first, second) = match program.wrong {
        Wrong::RangesHighFirst => (4 * v + 2, 4 * v),
        Wrong::RangesLowsFirst => (2 * v, 2 * (count + v)),
        Wrong::RangesAskTwo => (2 * v, 2 * v),
        _ => (4 * v, 4 * v + 2),
    };
    match (two(first), two(second)) {
        (Some(low), Some(high)) => (low, high),
        _ => (low, high),
    }
}

/// Is the length of the ranges not 4 × variables?
fn fourteen(program: &Program, length: usize) -> bool {
    let due = 4 * program.variables.len();
    match program.wrong {
        Wrong::RangesAskTwo => length != due / 2,
        Wrong::RangesMoreTaken => length < due,
        Wrong::RangesLessTaken => length > due,
        Wrong::RangesAnyWhole => length % 4 != 0,
        Wrong::RangesRounded => length / 4 != due / 4,
        _ => length != due,
    }
}

/// Is the buffer too short?
fn fifteen(program: &Program, room: usize) -> bool {
    let due = 2 * program.variables.len();
    match program.wrong {
        Wrong::BoundsAskFour => room < 2 * due,
        Wrong::BoundsAskTwelve => room < 6 * due,
        Wrong::BoundsAskFounded => room < 2 * program.variables.iter().filter(|v| v.founded()).count(),
        Wrong::BoundsAskNothing => false,
        Wrong::BoundsOneShort => room + 1 < due,
        Wrong::BoundsMustBeLonger => room <= due,
        Wrong::BoundsNoneRefused => room < due.max(1),
        _ => room < due,
    }
}

/// Is this range empty, or does it leave the declared one?
fn twenty(program: &Program, v: usize, (low, high): Span) -> bool {
    let variable = &program.variables[v];
    let empty = match program.wrong {
        Wrong::TwentyEmptyPasses => false,
        Wrong::TwentySingleRefused => low >= high,
        Wrong::TwentyUnsigned => low as u16 > high as u16,
        _ => low > high,
    };
    let under = match program.wrong {
        Wrong::TwentyLowPasses | Wrong::TwentyEmptyOnly => false,
        Wrong::TwentyLowLate => low < variable.low - 1,
        Wrong::TwentyLowEarly => low <= variable.low && variable.low < variable.high,
        _ => low < variable.low,
    };
    let over = match program.wrong {
        Wrong::TwentyHighPasses | Wrong::TwentyEmptyOnly => false,
        Wrong::TwentyHighLate => high > variable.high + 1,
        Wrong::TwentyHighEarly => high >= variable.high && variable.low < variable.high,
        _ => high > variable.high,
    };
    let last = program.variables.len() - 1;
    let judged = match program.wrong {
        Wrong::TwentyFoundedOnly => variable.founded(),
        Wrong::TwentyStandardOnly => !variable.founded(),
        Wrong::TwentyNotAbove => !variable.above(),
        Wrong::TwentyFirstOnly => v == 0,
        Wrong::TwentyLastOut => v < last || last == 0,
        Wrong::TwentyLastOnly => v == last,
        Wrong::TwentyFirstOut => v > 0 || last == 0,
        Wrong::TwentyNever => false,
        _ => true,
    };
    let start = variable.start();
    let left = program.wrong == Wrong::TwentyWithoutStart && variable.founded();
    judged && (empty || under || over || left && !(low..=high).contains(&start))
}

/// Where a rule reads a position.
#[derive(Clone, Copy)]
enum Reads {
    /// At the bound so far.
    Bound,
    /// At the bound so far, but no nearer than the lent range. A wrong variant.
    BoundInRange,
    At(i64),
}

/// What a rule does to its head.
enum Push {
    /// It gives what it gives.
    Gives(Vec<Reads>),
    /// It lets the head reach its far end.
    Far,
    Nothing,
}

impl Half {
    /// The mistake that is made with this variable: some are made with one kind alone.
    fn wrong(&self, v: usize) -> Wrong {
        let (one, both) = match self.program.wrong {
            Wrong::StartsAtLentBelow => (Kind::Below, Wrong::StartsAtLent),
            Wrong::StartsAtLentAbove => (Kind::Above, Wrong::StartsAtLent),
            Wrong::StopsAtDeclaredBelow => (Kind::Below, Wrong::StopsAtDeclared),
            Wrong::StopsAtDeclaredAbove => (Kind::Above, Wrong::StopsAtDeclared),
            Wrong::PastIsNothingAbove => (Kind::Above, Wrong::PastIsNothing),
            Wrong::LiftsIntoRangeAbove => (Kind::Above, Wrong::LiftsIntoRange),
            Wrong::LiftsAllTheWayAbove => (Kind::Above, Wrong::LiftsAllTheWay),
            Wrong::KeptAtLentFarAbove => (Kind::Above, Wrong::KeptAtLentFar),
            Wrong::KeptIntoRangeAbove => (Kind::Above, Wrong::KeptIntoRange),
            Wrong::SingleNotKeptAbove => (Kind::Above, Wrong::SingleNotKept),
            Wrong::FoundedAtBoundAbove => (Kind::Above, Wrong::FoundedAtBound),
            Wrong::FoundedAtDeclaredAbove => (Kind::Above, Wrong::FoundedAtDeclared),
            Wrong::MixedSingleFarAbove => (Kind::Above, Wrong::MixedSingleFar),
            Wrong::MixedAtLowAbove => (Kind::Above, Wrong::MixedAtLow),
            Wrong::MixedAtHighAbove => (Kind::Above, Wrong::MixedAtHigh),
            Wrong::MixedAtUtmostAbove => (Kind::Above, Wrong::MixedAtUtmost),
            Wrong::MixedNothingAbove => (Kind::Above, Wrong::MixedNothing),
            Wrong::MixedIdleOutAbove => (Kind::Above, Wrong::MixedIdleOut),
            Wrong::MixedToDeclaredAbove => (Kind::Above, Wrong::MixedToDeclared),
            other => return other,
        };
        if self.program.variables[v].kind == one {
            both
        } else {
            Wrong::Nothing
        }
    }

    /// The starting end of the lent range.
    fn near(&self, v: usize) -> i64 {
        let (low, high) = self.lent[v];
        if self.program.variables[v].above() {
            high
        } else {
            low
        }
    }

    /// The other end of the lent range.
    fn far(&self, v: usize) -> i64 {
        let (low, high) = self.lent[v];
        if self.program.variables[v].above() {
            low
        } else {
            high
        }
    }

    /// Which of the two lies further from the variable's starting end?
    fn further(&self, v: usize, one: i64, other: i64) -> i64 {
        if self.program.variables[v].further(one, other) {
            one
        } else {
            other
        }
    }

    /// Each founded variable at its declared starting end.
    fn starts(&self) -> Vec<i64> {
        let start = |(v, variable): (usize, &Variable)| match self.wrong(v) {
            _ if !variable.founded() => self.lent[v].0,
            Wrong::StartsAtLent => self.near(v),
            Wrong::StartsAtZero => 0,
            Wrong::AboveFromLow => variable.low,
            _ => variable.start(),
        };
        self.program.variables.iter().enumerate().map(start).collect()
    }

    /// Where a lift of this variable stops.
    fn stop(&self, v: usize) -> i64 {
        let variable = &self.program.variables[v];
        match self.wrong(v) {
            Wrong::StopsAtDeclared => variable.far(),
            Wrong::StopsNowhere if variable.above() => i64::from(i16::MIN),
            Wrong::StopsNowhere => i64::from(i16::MAX),
            Wrong::ConstraintsDrawIn => self.constrained(v),
            _ => self.far(v),
        }
    }

    /// The far end drawn in by the constraints of this variable alone. A wrong variant.
    fn constrained(&self, v: usize) -> i64 {
        let alone = |c: &&Constraint| c.terms.len() == 1 && c.terms[0].variable == v;
        let constraints: Vec<&Constraint> = self.program.constraints.iter().filter(alone).collect();
        let mut values = self.starts();
        values[v] = self.far(v);
        let step = if self.program.variables[v].above() { 1 } else { -1 };
        while values[v] != self.near(v)
            && constraints.iter().any(|c| !self.program.constraint_met(c, &values))
        {
            values[v] += step;
        }
        values[v]
    }

    /// The end of its range at which a position that is not kept demands most.
    fn end(&self, rule: &Rule, i: usize) -> i64 {
        let Term { variable: v, op, .. } = rule.terms[i];
        let variable = &self.program.variables[v];
        let (low, high) = self.lent[v];
        let rising = self.program.direction(rule, i) == Direction::Rising;
        let into_above = self.program.variables[rule.head].above();
        let turned = match self.program.wrong {
            Wrong::RisingAtLow => rising,
            Wrong::FallingAtHigh => !rising,
            Wrong::LiteralsAtOther => op != PLAIN,
            Wrong::PlainAtOther => op == PLAIN,
            Wrong::AboveEndsUnswapped => into_above && op == PLAIN,
            Wrong::AboveLiteralsEndsSwap => into_above && op != PLAIN,
            Wrong::EndsByKind => variable.above(),
            Wrong::FoundedAtFar => variable.founded(),
            Wrong::StandardAtOther => !variable.founded(),
            Wrong::StandardAtLow => !variable.founded() && rising,
            Wrong::StandardAtHigh => !variable.founded() && !rising,
            _ => false,
        };
        let declared = match self.wrong(v) {
            Wrong::FoundedAtDeclared => variable.founded(),
            Wrong::StandardAtDeclared => !variable.founded(),
            _ => false,
        };
        match rising != turned {
            true if declared => variable.high,
            false if declared => variable.low,
            true => high,
            false => low,
        }
    }

    fn reads(&self, rule: &Rule, i: usize) -> Reads {
        let v = rule.terms[i].variable;
        let variable = &self.program.variables[v];
        let (low, high) = self.lent[v];
        if self.program.kept(rule, i) {
            return match self.wrong(v) {
                Wrong::KeptAtLentFar => Reads::At(self.far(v)),
                Wrong::KeptAtLentNear => Reads::At(self.near(v)),
                Wrong::KeptAtDeclaredFar => Reads::At(variable.far()),
                Wrong::KeptAtDeclaredStart => Reads::At(variable.start()),
                Wrong::KeptIntoRange => Reads::BoundInRange,
                Wrong::SingleNotKept if low == high => Reads::At(low),
                Wrong::OwnHeadAtFar if v == rule.head => Reads::At(self.far(v)),
                Wrong::LiteralsNotKept if rule.terms[i].op != PLAIN => Reads::At(self.far(v)),
                _ => Reads::Bound,
            };
        }
        match self.wrong(v) {
            Wrong::FoundedAtBound if variable.founded() => Reads::Bound,
            _ => Reads::At(self.end(rule, i)),
        }
    }

    /// A mixed variable that is single is read so; another one lets the head reach its
    /// far end.
    fn push(&self, rule: &Rule) -> Push {
        let (program, wrong) = (&self.program, self.wrong(rule.head));
        let head = &program.variables[rule.head];
        if wrong == Wrong::BoundsIdleOut && program.idle(rule) {
            return Push::Nothing;
        }
        let mixed = |i: &usize| program.direction(rule, *i) == Direction::Mixed;
        let Some(i) = (0..rule.terms.len()).find(mixed) else {
            return Push::Gives((0..rule.terms.len()).map(|i| self.reads(rule, i)).collect());
        };
        // A mixed variable stands alone in its body.
        let v = rule.terms[i].variable;
        let (low, high) = self.lent[v];
        let founded = program.variables[v].founded();
        let smaller = if low.abs() < high.abs() { low } else { high };
        let larger = if low.abs() > high.abs() { low } else { high };
        let utmost = if head.above() {
            if low <= 0 && 0 <= high {
                0
            } else {
                smaller
            }
        } else {
            larger
        };
        let read = |value: i64| Push::Gives(vec![Reads::At(value)]);
        let single = match wrong {
            Wrong::MixedSingleFar => false,
            Wrong::MixedTwoSingle => high - low <= 1,
            _ => low == high,
        };
        let gives = || program.gives(rule, |_| utmost).is_some_and(|g| head.further(g, head.start()));
        match wrong {
            Wrong::MixedIdleOut if program.idle(rule) => Push::Nothing,
            Wrong::MixedSingleNothing if single => Push::Nothing,
            Wrong::MixedSingleBound if single && founded => Push::Gives(vec![Reads::Bound]),
            Wrong::MixedSingleStart if single && founded => read(program.variables[v].start()),
            _ if single => read(low),
            Wrong::MixedAtLow => read(low),
            Wrong::MixedAtHigh => read(high),
            Wrong::MixedAtUtmost => read(utmost),
            Wrong::MixedAtBound if founded => Push::Gives(vec![Reads::Bound]),
            Wrong::MixedNothing => Push::Nothing,
            Wrong::MixedStandardOnly if founded => Push::Nothing,
            Wrong::MixedFoundedOnly if !founded => Push::Nothing,
            Wrong::MixedIfGives if !gives() => Push::Nothing,
            Wrong::MixedByLent if low >= 0 || high <= 0 => read(utmost),
            Wrong::MixedAroundZero if low > 0 || high < 0 => read(utmost),
            Wrong::KeptByLent if low >= 0 || high <= 0 => {
                let mut lent = program.clone();
                (lent.variables[v].low, lent.variables[v].high) = (low, high);
                match lent.kept(rule, i) {
                    true => Push::Gives(vec![Reads::Bound]),
                    false => read(utmost),
                }
            }
            _ => Push::Far,
        }
    }

    /// What a rule gives, the bounds so far given.
    fn given(&self, rule: &Rule, push: &Push, bounds: &[i64]) -> Option<i64> {
        match push {
            Push::Nothing => None,
            Push::Far if self.wrong(rule.head) == Wrong::MixedToDeclared => {
                Some(self.program.variables[rule.head].far())
            }
            Push::Far => Some(self.far(rule.head)),
            Push::Gives(reads) => self.program.gives(rule, |i| match reads[i] {
                Reads::Bound => bounds[rule.terms[i].variable],
                Reads::BoundInRange => {
                    let v = rule.terms[i].variable;
                    self.further(v, bounds[v], self.near(v))
                }
                Reads::At(value) => value,
            }),
        }
    }

    /// How far each founded variable is lifted; a standard one has its range's low.
    fn lifted(&self) -> Vec<i64> {
        let wrong = self.program.wrong;
        let pushes: Vec<Push> = self.program.rules.iter().map(|rule| self.push(rule)).collect();
        let stops: Vec<i64> = (0..self.lent.len()).map(|v| self.stop(v)).collect();
        let mut bounds = self.starts();
        let mut rounds = 0;
        loop {
            let mut moved = false;
            for (rule, push) in self.program.rules.iter().zip(&pushes) {
                let v = rule.head;
                let head = &self.program.variables[v];
                let wrong = self.wrong(v);
                let Some(given) = self.given(rule, push, &bounds) else { continue };
                let past = head.further(given, stops[v]);
                let uncut = wrong == Wrong::MixedToDeclared && matches!(push, Push::Far);
                let to = match past && !uncut {
                    true if wrong == Wrong::PastIsNothing => continue,
                    true => stops[v],
                    false => given,
                };
                if head.further(to, bounds[v]) {
                    bounds[v] = if wrong == Wrong::LiftsAllTheWay { self.far(v) } else { to };
                    moved = true;
                }
            }
            rounds += 1;
            let ends = match wrong {
                Wrong::BoundsOneRound => true,
                Wrong::BoundsTwoRounds => rounds == 2,
                Wrong::BoundsFortyRounds => rounds == 40,
                _ => false,
            };
            if !moved || ends {
                return bounds;
            }
        }
    }

    /// The bounds that go out.
    fn bounds(&self) -> Vec<i64> {
        let mut bounds = self.lifted();
        for (v, variable) in self.program.variables.iter().enumerate().filter(|(_, v)| v.founded()) {
            let moved = bounds[v] != variable.start();
            match self.wrong(v) {
                Wrong::LiftsIntoRange => bounds[v] = self.further(v, bounds[v], self.near(v)),
                Wrong::MovedIntoRange if moved => bounds[v] = self.further(v, bounds[v], self.near(v)),
                _ => {}
            }
        }
        match self.program.wrong {
            Wrong::DrawnInAgain => self.drawn_in_again(bounds),
            _ => bounds,
        }
    }

    /// Draws in the far ends to the bounds again and again. A wrong variant.
    fn drawn_in_again(&self, bounds: Vec<i64>) -> Vec<i64> {
        let mut half = Half { program: self.program.clone(), lent: self.lent.clone() };
        for (v, variable) in self.program.variables.iter().enumerate().filter(|(_, v)| v.founded()) {
            if !(half.lent[v].0..=half.lent[v].1).contains(&bounds[v]) {
                return bounds;
            }
            match variable.above() {
                true => half.lent[v].0 = bounds[v],
                false => half.lent[v].1 = bounds[v],
            }
        }
        match half.lifted() {
            again if again == bounds => bounds,
            again => half.drawn_in_again(again),
        }
    }

    /// Does a wrong variant write nothing?
    fn unwritten(&self, bounds: &[i64]) -> bool {
        let rule_past = |rule: &Rule| {
            let (head, push) = (&self.program.variables[rule.head], self.push(rule));
            let given = self.given(rule, &push, bounds);
            given.is_some_and(|given| head.further(given, self.far(rule.head)))
        };
        let before = |v: usize| {
            let variable = &self.program.variables[v];
            variable.founded() && variable.further(self.near(v), bounds[v])
        };
        match self.program.wrong {
            Wrong::PastIsNone => self.program.rules.iter().any(rule_past),
            Wrong::BeforeIsNone => (0..bounds.len()).any(before),
            Wrong::ConstraintUnmetNone => {
                self.program.constraints.iter().any(|c| !self.program.constraint_met(c, bounds))
            }
            _ => false,
        }
    }

    /// Writes the bounds from the buffer's first byte on, and nothing after them.
    fn lay(&self, bounds: &[i64], buffer: &mut [u8]) {
        let wrong = self.program.wrong;
        let mut bytes: Vec<Option<u8>> = Vec::new();
        for (v, variable) in self.program.variables.iter().enumerate() {
            let value = match (variable.founded(), wrong) {
                (false, Wrong::StandardHigh) => self.lent[v].1,
                (false, Wrong::StandardDeclared) => variable.low,
                (false, Wrong::StandardLeftOut) => continue,
                (true, Wrong::BoundsAsSteps) => bounds[v] - variable.start(),
                _ => bounds[v],
            };
            let mut two = (value as i16).to_be_bytes();
            if wrong == Wrong::BoundsLittle {
                two.reverse();
            }
            let keeps = match wrong {
                Wrong::StandardUnwritten => !variable.founded(),
                Wrong::UnmovedUnwritten => variable.founded() && bounds[v] == variable.start(),
                _ => false,
            };
            bytes.extend(two.map(|byte| (!keeps).then_some(byte)));
        }
        // Only a wrong variant has a buffer shorter than the bounds.
        let start = match wrong {
            Wrong::BoundsAtEnd => buffer.len().saturating_sub(bytes.len()),
            _ => 0,
        };
        for (place, byte) in buffer[start..].iter_mut().zip(&bytes) {
            *place = byte.unwrap_or(*place);
        }
        if let (Wrong::BoundsClear, Some(next)) = (wrong, buffer.get_mut(bytes.len())) {
            *next = 0;
        }
    }
}
