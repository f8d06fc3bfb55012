//! The walk over edges (document 02, wish 5): each variable has a set of reached
//! ones, and in the round of variable k it becomes a stop between. A set has 256
//! bits in four words; the set of x begins at word 4x.

use crate::graph;
use crate::meaning::Direction;
use crate::program::{unsigned, Program, VARIABLES};
use crate::reader::{parse, parse_fields, Refusal};
use crate::wrong::Wrong;

#[derive(Clone, Copy, Debug, PartialEq, Eq)]
pub enum Begun {
    Refused {
        number: usize,
        place: usize,
    },
    /// How many variables the file has.
    Begun(usize),
}

/// The words of one set.
pub const WORDS: usize = 4;

/// Is y in the set of x?
pub fn has(sets: &[u64], x: usize, y: usize) -> bool {
    sets[WORDS * x + y / 64] >> (y % 64) & 1 == 1
}

/// All numbers in the set of x.
fn members(sets: &[u64], x: usize) -> Vec<usize> {
    (0..VARIABLES).filter(|&y| has(sets, x, y)).collect()
}

pub fn begin_with(file: &[u8], sets: &mut [u64], wrong: Wrong) -> Begun {
    let program = match open(file, sets.len(), wrong) {
        Ok(program) => program,
        Err(Refusal { number, place }) => {
            match (wrong, parse_fields(file, wrong)) {
                (Wrong::BeginShortWrites, Ok(program)) => lay(&program, sets),
                (Wrong::BeginRefusedClears, Err(_)) => sets.fill(0),
                _ => {}
            }
            return Begun::Refused { number, place };
        }
    };
    lay(&program, sets);
    let count = program.variables.len();
    if wrong == Wrong::BeginClearsAfter {
        sets[WORDS * count..].fill(0);
    }
    Begun::Begun(match wrong {
        Wrong::BegunWords => WORDS * count,
        Wrong::BegunFounded => program.variables.iter().filter(|v| v.founded()).count(),
        _ => count,
    })
}

/// The file's own refusals, but for 13, then 15.
fn open(file: &[u8], words: usize, wrong: Wrong) -> Result<Program, Refusal> {
    let own = match wrong {
        Wrong::BeginThirteen => parse(file, wrong),
        _ => parse_fields(file, wrong),
    };
    let short = |variables: usize| match wrong {
        Wrong::BeginOneShort => words + 1 < WORDS * variables,
        Wrong::BeginMustBeLonger => words <= WORDS * variables && variables > 0,
        Wrong::BeginNoneRefused => words < (WORDS * variables).max(1),
        Wrong::BeginAsksAll => words < WORDS * VARIABLES,
        Wrong::BeginAsksBytes => 8 * words < WORDS * variables,
        _ => words < WORDS * variables,
    };
    let place = if wrong == Wrong::FifteenHasPlace { words } else { 0 };
    match own {
        Err(_) if wrong == Wrong::FifteenBeforeOwn && short(declared(file)) => {
            Err(Refusal { number: 15, place })
        }
        Ok(program) if short(program.variables.len()) => Err(Refusal { number: 15, place }),
        own => own,
    }
}

/// How many fields of variables a file begins with.
fn declared(file: &[u8]) -> usize {
    let (mut count, mut at) = (0, 0);
    while file.len() >= at + 3 && file[at] == 1 {
        at += 3 + unsigned(file, at + 1);
        count += 1;
    }
    count
}

/// Writes the sets of all variables. Only a wrong variant has too few words.
fn lay(program: &Program, sets: &mut [u64]) {
    let edges = drawn(program);
    let count = edges.len();
    for (x, y) in (0..count).flat_map(|x| (0..VARIABLES).map(move |y| (x, y))) {
        let (word, bit) = place(x, y, count, program.wrong);
        let Some(word) = sets.get_mut(word) else { continue };
        let keeps = match program.wrong {
            Wrong::BeginAdds => true,
            Wrong::BeginKeepsHigh => y >= count,
            _ => false,
        };
        if edges[x].contains(&y) {
            *word |= 1 << bit;
        } else if !keeps {
            *word &= !(1 << bit);
        }
    }
}

/// Where it stands that y is in the set of x: the word, and the bit in it.
fn place(x: usize, y: usize, count: usize, wrong: Wrong) -> (usize, usize) {
    match wrong {
        Wrong::BitsTurned => (WORDS * x + y / 64, 63 - y % 64),
        Wrong::WordsTurned => (WORDS * x + 3 - y / 64, y % 64),
        Wrong::WordsFirst => (y / 64 * count + x, y % 64),
        _ => (WORDS * x + y / 64, y % 64),
    }
}

/// What each variable has before the first round: the edges.
fn drawn(program: &Program) -> Vec<Vec<usize>> {
    let edges = graph::edges(program);
    let all = 0..edges.len();
    let from = |x: usize| all.clone().filter(|&y| edges[y].contains(&x)).collect::<Vec<_>>();
    let after = |x: usize| {
        let reached = graph::reached(&edges, x);
        all.clone().filter(|&y| reached[y]).collect::<Vec<_>>()
    };
    let each = |x: usize| match program.wrong {
        Wrong::BeginAfterRounds => after(x),
        Wrong::BeginUnmixedEmpty if !mixes(program) => Vec::new(),
        Wrong::BeginInvalidEmpty if graph::first_offending_rule(program).is_some() => Vec::new(),
        Wrong::EdgesBackwards => from(x),
        Wrong::EdgesBothWays => [from(x), edges[x].clone()].concat(),
        Wrong::SelfReached => [&edges[x][..], &[x]].concat(),
        Wrong::SelfLeftOut => edges[x].iter().copied().filter(|&y| y != x).collect(),
        _ => edges[x].clone(),
    };
    all.clone().map(each).collect()
}

/// Is a position of some rule mixed?
pub fn mixes(program: &Program) -> bool {
    program.rules.iter().any(|rule| {
        (0..rule.terms.len()).any(|position| program.direction(rule, position) == Direction::Mixed)
    })
}

/// Mistakes about the room that a call asks for.
struct Room {
    over: Wrong,
    under: Wrong,
    short: Wrong,
    longer: Wrong,
    wraps: Wrong,
}

const STEP: Room = Room {
    over: Wrong::StepTakes257,
    under: Wrong::StepRefuses256,
    short: Wrong::StepOneShort,
    longer: Wrong::StepMustBeLonger,
    wraps: Wrong::StepWraps,
};

const COMPONENTS: Room = Room {
    over: Wrong::ComponentsTake257,
    under: Wrong::ComponentsRefuse256,
    short: Wrong::ComponentsOneShort,
    longer: Wrong::ComponentsMustBeLonger,
    wraps: Wrong::ComponentsWrap,
};

impl Room {
    /// Are there at most 256 variables, and so many words as their sets have?
    fn fits(&self, words: usize, variables: usize, wrong: Wrong) -> bool {
        let most = match wrong {
            _ if wrong == self.over => VARIABLES + 1,
            _ if wrong == self.under => VARIABLES - 1,
            _ if wrong == self.wraps => usize::MAX,
            _ => VARIABLES,
        };
        let lent = match wrong {
            _ if wrong == self.short => words + 1,
            _ if wrong == self.longer => words.saturating_sub(1),
            _ => words,
        };
        variables <= most && WORDS.wrapping_mul(variables) <= lent
    }
}

pub fn step_with(sets: &mut [u64], variables: usize, k: usize, wrong: Wrong) -> bool {
    let below = match wrong {
        Wrong::StepAtVariables => k <= variables,
        Wrong::StepShortK => k % VARIABLES < variables,
        _ => k < variables,
    };
    let steps = below && STEP.fits(sets.len(), variables, wrong);
    if !steps && wrong != Wrong::StepRefusedWrites {
        return false;
    }
    let before = sets.to_vec();
    match wrong {
        Wrong::StepToTheEnd => to_the_end(sets, variables),
        Wrong::StepShortK => round(sets, variables, k % VARIABLES, wrong),
        _ => round(sets, variables, k, wrong),
    }
    if wrong == Wrong::StepAnswersMoved {
        return sets != before;
    }
    steps
}

/// Rounds until nothing moves, for a wrong variant.
fn to_the_end(sets: &mut [u64], variables: usize) {
    loop {
        let before = sets.to_vec();
        (0..variables).for_each(|k| round(sets, variables, k, Wrong::Nothing));
        if sets == before {
            return;
        }
    }
}

/// Each set that has k takes in the set of k, as it stands. Only a wrong variant
/// has more sets than there are words for.
fn round(sets: &mut [u64], variables: usize, k: usize, wrong: Wrong) {
    let whole = sets.len() / WORDS;
    let count = if wrong == Wrong::SetsAfterJoin { whole } else { variables.min(whole) };
    let k = match wrong {
        Wrong::RoundsDescending => variables - 1 - k,
        Wrong::RoundBefore if k == 0 => return,
        Wrong::RoundBefore => k - 1,
        Wrong::RoundNext => k + 1,
        _ => k,
    };
    if k >= whole {
        return;
    }
    let before = sets.to_vec();
    for (into, from) in joined(&before, count, k, wrong) {
        let set = &mut sets[WORDS * into..WORDS * (into + 1)];
        if wrong == Wrong::StepReplaces {
            set.fill(0);
        }
        let all = members(&before, from).into_iter();
        all.filter(|&y| taken(into, y, count, wrong)).for_each(|y| set[y / 64] |= 1 << (y % 64));
    }
}

/// Which sets take in which: those that have k take in the set of k.
fn joined(sets: &[u64], count: usize, k: usize, wrong: Wrong) -> Vec<(usize, usize)> {
    let having = |x: &usize| match wrong {
        Wrong::KTakesIn => has(sets, k, *x),
        Wrong::JoinsBothWays => has(sets, *x, k) || *x < VARIABLES && has(sets, k, *x),
        Wrong::EverySetJoins => true,
        Wrong::LastSetOut => has(sets, *x, k) && x + 1 < count,
        Wrong::FirstSetOut => has(sets, *x, k) && *x > 0,
        Wrong::LaterSetsJoin => has(sets, *x, k) && *x > k,
        Wrong::EarlierSetsJoin => has(sets, *x, k) && *x < k,
        // There are more than 256 numbers in a wrong variant alone.
        _ => k < VARIABLES && has(sets, *x, k),
    };
    let pair = |x: usize| match wrong {
        Wrong::JoinsIntoK | Wrong::KTakesIn => (k, x),
        _ => (x, k),
    };
    (0..count).filter(having).map(pair).collect()
}

/// Is this number taken into a set? All are.
fn taken(into: usize, y: usize, count: usize, wrong: Wrong) -> bool {
    match wrong {
        Wrong::FirstWordJoins => y < 64,
        Wrong::LastWordOut => y < 192,
        Wrong::VariablesJoin => y < count,
        Wrong::StepSelfLeftOut => y != into,
        _ => true,
    }
}

pub fn components_with(sets: &[u64], variables: usize, buffer: &mut [u8], wrong: Wrong) -> bool {
    let bytes = match wrong {
        Wrong::ComponentsByteShort => buffer.len() + 1,
        Wrong::ComponentsByteMore => buffer.len().saturating_sub(1),
        _ => buffer.len(),
    };
    let none = wrong == Wrong::ComponentsNoneRefused && variables == 0;
    let writes = COMPONENTS.fits(sets.len(), variables, wrong) && variables <= bytes && !none;
    if !writes && wrong != Wrong::ComponentsRefusedWrite {
        return false;
    }
    // Only a wrong variant has too few words or bytes.
    let count = variables.min(sets.len() / WORDS).min(VARIABLES);
    for (byte, first) in buffer.iter_mut().zip(firsts(sets, count, wrong)) {
        *byte = first as u8;
    }
    if wrong == Wrong::ComponentsClearAfter {
        buffer[count..].fill(0);
    }
    writes
}

/// The byte of each variable.
fn firsts(sets: &[u64], count: usize, wrong: Wrong) -> Vec<usize> {
    let firsts: Vec<usize> = (0..count).map(|x| first(sets, count, x, wrong)).collect();
    let before = |x: usize| (0..x).filter(|&y| firsts[y] == y).count();
    match wrong {
        Wrong::ComponentNumbered => firsts.iter().map(|&first| before(first)).collect(),
        Wrong::ComponentPassedOn => firsts.iter().map(|&first| firsts[first]).collect(),
        _ => firsts,
    }
}

/// The first variable that is x, or that x has and that has x.
fn first(sets: &[u64], count: usize, x: usize, wrong: Wrong) -> usize {
    let (goes, comes) = (|y: usize| has(sets, x, y), |y: usize| has(sets, y, x));
    let shares = |y: &usize| match wrong {
        Wrong::ComponentOneWay => *y == x || goes(*y),
        Wrong::ComponentComesFrom => *y == x || comes(*y),
        Wrong::ComponentEither => *y == x || goes(*y) || comes(*y),
        Wrong::ComponentNeedsCircle => goes(*y) && comes(*y),
        Wrong::ComponentFirstWord => *y == x || *y < 64 && goes(*y) && comes(*y),
        Wrong::ComponentOneOff => *y == x || goes(*y) && has(sets, (y + 1) % count, x),
        _ => *y == x || goes(*y) && comes(*y),
    };
    match wrong {
        Wrong::ComponentOwn => x,
        Wrong::ComponentLast => (0..count).rev().find(shares).unwrap_or(x),
        _ => (0..count).find(shares).unwrap_or(0),
    }
}
