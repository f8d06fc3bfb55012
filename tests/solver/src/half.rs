//! What the bounds of half-filled plans are (02, wish 7), as an answer set program.
//!
//! A plan P is a file with lent ranges. `ge@(P,x,v)` says that x of kind 1 can be lifted
//! as far as v, `le@(P,x,v)` that x of kind 2 can. No rule for them has a negation, so
//! that there is one answer set, and it has no more than the rules derive: the least
//! model. The grounder does all arithmetic and goes through all values. For @ stands the
//! number of the file, so that it need not hold the rules of all files together.

use crate::reading::{direction_by, moved, Direction, Moved, Reading};
use crate::translate::{self, Translation};
use second::bounds::Span;
use second::program::*;
use std::fmt::Write;

macro_rules! readings {
    (right: $($(#[$rsays:meta])* $right:ident,)*; wrong: $($(#[$says:meta])* $name:ident,)*) => {
        #[derive(Clone, Copy, Debug, PartialEq, Eq)]
        pub enum Lifting {
            /// A position that is not kept is read at every value of its lent range; the
            /// most that is demanded counts.
            Right,
            $($(#[$rsays])* $right,)*
            $($(#[$says])* $name,)*
        }

        impl Lifting {
            /// Right ones that say the same in other words.
            pub const OTHERS: &'static [Lifting] = &[$(Lifting::$right,)*];

            pub const WRONG: &'static [Lifting] = &[$(Lifting::$name,)*];
        }
    };
}

readings! {
    right:
    /// It is read at the lent high where it rises, at the lent low where it falls.
    ByEnds,
    ;
    wrong:
    /// It is read at the other end.
    LeastDemand,
    /// In a rule for kind 2 plain terms do not swap.
    EndsUnswapped,
    /// In a rule for kind 2 literals swap too.
    LiteralEndsSwap,
    /// A variable of kind 2 is read at the other end.
    EndsByKind,
    /// A standard one is read at its low.
    StandardAtLow,
    /// Positions that are not kept are read in the declared range.
    DeclaredEnds,
    /// Founded ones are read in the bounds, kept or not.
    RestInBounds,
    /// Kept positions are read anywhere in the lent range.
    KeptAnywhere,
    /// They are read at the declared starting end.
    KeptAtStart,
    /// They are read at the starting end of the lent range at least.
    KeptIntoRange,
    /// They are read in the lent range where that is single.
    SingleNotKept,
    /// Lifts start at the starting end of the lent range.
    LentStart,
    /// Bounds before the lent range are drawn into it.
    IntoRange,
    /// A lift stops at the declared far end.
    DeclaredFar,
    /// A rule that gives more than the far end gives nothing.
    PastIsNothing,
    /// A mixed variable that is not single lets the head reach nothing.
    MixedNothing,
    /// It is read at all its values.
    MixedRead,
    /// It is read in the bounds.
    MixedInBounds,
    /// It lets the head reach the declared far end.
    MixedToDeclared,
    /// A mixed variable that is single lets the head reach its far end too.
    MixedSingleFar,
    /// A variable is mixed by its lent range.
    MixedByLent,
    /// Idle rules are left out, which tells where a mixed variable is not single.
    IdleOut,
    /// A sum over a divisor is rounded down.
    RoundsDown,
    /// Kind 2 is read as kind 1.
    AboveAsBelow,
    /// The entry of a standard variable is its range's high.
    StandardHigh,
    /// It is its declared low.
    StandardDeclared,
}

/// What holds of the plans of every file.
fn meaning(lifting: Lifting) -> String {
    // 02: "lifted from its declared starting end"
    let start = match lifting {
        Lifting::LentStart => "kind@(X,K,_,_), lent@(P,X,L,H)",
        _ => "kind@(X,K,L,H), lent@(P,X,_,_)",
    };
    let mut out = format!(
        "ge@(P,X,L) :- {start}, K = 1.\n\
         le@(P,X,H) :- {start}, K = 2.\n\
         ge@(P,X,V-1) :- ge@(P,X,V), kind@(X,_,L,_), V > L.\n\
         le@(P,X,V+1) :- le@(P,X,V), kind@(X,_,_,H), V < H.\n\
         come@(P,X,V) :- ge@(P,X,V).\n\
         come@(P,X,V) :- le@(P,X,V).\n"
    );
    // 02: "kept variables are read at the bounds so far"
    out += match lifting {
        Lifting::KeptAnywhere => "seen@(P,X,L..H) :- lent@(P,X,L,H).\n",
        Lifting::KeptAtStart => {
            "seen@(P,X,L) :- kind@(X,1,L,_), lent@(P,X,_,_).\n\
             seen@(P,X,H) :- kind@(X,2,_,H), lent@(P,X,_,_).\n"
        }
        Lifting::KeptIntoRange => {
            "seen@(P,X,V) :- come@(P,X,V).\n\
             seen@(P,X,L) :- kind@(X,1,_,_), lent@(P,X,L,_).\n\
             seen@(P,X,H) :- kind@(X,2,_,_), lent@(P,X,_,H).\n"
        }
        Lifting::SingleNotKept => {
            "seen@(P,X,V) :- come@(P,X,V), lent@(P,X,L,H), L < H.\n\
             seen@(P,X,L) :- lent@(P,X,L,L).\n"
        }
        _ => "seen@(P,X,V) :- come@(P,X,V).\n",
    };
    // 02: "a mixed one not yet single lets the head reach its far end"
    out += match lifting {
        Lifting::MixedNothing | Lifting::MixedRead | Lifting::MixedInBounds => "",
        Lifting::MixedSingleFar => "open@(P,X) :- lent@(P,X,_,_).\n",
        Lifting::MixedByLent => "open@(P,X) :- lent@(P,X,L,H), L < 0, 0 < H.\n",
        _ => "open@(P,X) :- lent@(P,X,L,H), L < H.\n",
    };
    out += match lifting {
        Lifting::MixedSingleFar => "",
        Lifting::MixedRead => "sized@(P,X,L..H) :- lent@(P,X,L,H).\n",
        Lifting::MixedInBounds => {
            "sized@(P,X,L) :- lent@(P,X,L,L).\n\
             sized@(P,X,V) :- come@(P,X,V), lent@(P,X,L,H), L < H.\n"
        }
        Lifting::MixedByLent => {
            "sized@(P,X,L..H) :- lent@(P,X,L,H), L >= 0.\n\
             sized@(P,X,L..H) :- lent@(P,X,L,H), H <= 0.\n"
        }
        _ => "sized@(P,X,L) :- lent@(P,X,L,L).\n",
    };
    // 02: "bounds go out as the least model does, standard ones as their range's low"
    out += match lifting {
        Lifting::StandardHigh => "bound(P,X,H) :- kind@(X,0,_,_), lent@(P,X,_,H).\n",
        Lifting::StandardDeclared => "bound(P,X,L) :- kind@(X,0,L,_), lent@(P,X,_,_).\n",
        _ => "bound(P,X,L) :- kind@(X,0,_,_), lent@(P,X,L,_).\n",
    };
    out += "cut(P,X) :- cut@(P,X).\n";
    out + match lifting {
        Lifting::IntoRange => {
            "bound(P,X,V) :- ge@(P,X,V), not ge@(P,X,V+1), lent@(P,X,L,_), V >= L.\n\
             bound(P,X,V) :- le@(P,X,V), not le@(P,X,V-1), lent@(P,X,_,H), V <= H.\n\
             bound(P,X,L) :- kind@(X,1,_,_), lent@(P,X,L,_), not ge@(P,X,L).\n\
             bound(P,X,H) :- kind@(X,2,_,_), lent@(P,X,_,H), not le@(P,X,H).\n"
        }
        _ => {
            "bound(P,X,V) :- ge@(P,X,V), not ge@(P,X,V+1).\n\
             bound(P,X,V) :- le@(P,X,V), not le@(P,X,V-1).\n"
        }
    }
}

/// What is to be read of the answer set.
pub const SHOWN: &str = "#show bound/3.\n#show cut/2.\n";

/// Numbers of a file, its first plan and its first rule, no two files alike.
#[derive(Clone, Copy, Default)]
pub struct From {
    pub file: usize,
    pub plan: usize,
    pub rule: usize,
}

/// The rules of a file, with the ranges that are lent.
pub fn file(program: &Program, lists: &[Vec<Span>], from: From, lifting: Lifting) -> String {
    let mut program = program.clone();
    if lifting == Lifting::AboveAsBelow {
        program.variables.iter_mut().filter(|v| v.above()).for_each(|v| v.kind = Kind::Below);
    }
    let mut out = meaning(lifting);
    for (x, Variable { kind, low, high }) in program.variables.iter().enumerate() {
        let _ = writeln!(out, "kind@({x},{},{low},{high}).", kind.number());
    }
    for (p, list) in (from.plan..).zip(lists) {
        let _ = writeln!(out, "list@({p}).");
        for (x, (low, high)) in list.iter().enumerate() {
            let _ = writeln!(out, "lent@({p},{x},{low},{high}).");
        }
    }
    if lifting == Lifting::IdleOut {
        out += &translate::not_idle(&program, from.rule);
    }
    let half = Half { program: &program, lifting };
    for (number, rule) in (from.rule..).zip(&program.rules) {
        out += &half.rule(number, rule);
    }
    out.replace('@', &from.file.to_string())
}

struct Half<'a> {
    program: &'a Program,
    lifting: Lifting,
}

impl Half<'_> {
    /// The end of its lent range at which a position demands most.
    fn end(&self, rule: &Rule, i: usize) -> &'static str {
        let Variable { kind, .. } = self.program.variables[rule.terms[i].variable];
        let reading = match self.lifting {
            Lifting::EndsUnswapped => Reading::PlainUnswapped,
            Lifting::LiteralEndsSwap => Reading::LiteralsSwap,
            _ => Reading::Right,
        };
        let rising = direction_by(self.program, rule, i, reading) == Direction::Rising;
        let turned = match self.lifting {
            Lifting::LeastDemand => true,
            Lifting::EndsByKind => kind == Kind::Above,
            Lifting::StandardAtLow => kind == Kind::Standard && rising,
            _ => false,
        };
        if rising != turned {
            "H"
        } else {
            "L"
        }
    }

    /// Binds `X` to what is read at this position. Which are kept and which mixed goes by
    /// the declared ranges.
    fn read(&self, rule: &Rule, i: usize) -> String {
        let x = rule.terms[i].variable;
        let Variable { low, high, .. } = self.program.variables[x];
        let founded = self.program.variables[x].founded();
        match (moved(self.program, rule, i, Reading::Right), self.lifting) {
            (Moved::Both, _) => format!("sized@(P,{x},X{i})"),
            (Moved::More, _) if founded => format!("seen@(P,{x},X{i})"),
            // 02: "others at the end of their range that demands most"
            (_, Lifting::RestInBounds) if founded => format!("come@(P,{x},X{i})"),
            (_, Lifting::DeclaredEnds) => format!("X{i} = {low}..{high}"),
            (
                _,
                Lifting::ByEnds
                | Lifting::LeastDemand
                | Lifting::EndsUnswapped
                | Lifting::LiteralEndsSwap
                | Lifting::EndsByKind
                | Lifting::StandardAtLow,
            ) => format!("lent@(P,{x},L{i},H{i}), X{i} = {}{i}", self.end(rule, i)),
            _ => format!("lent@(P,{x},L{i},H{i}), X{i} = L{i}..H{i}"),
        }
    }

    fn rule(&self, number: usize, rule: &Rule) -> String {
        let h = rule.head;
        let Variable { low, high, .. } = self.program.variables[h];
        let above = self.program.variables[h].above();
        let reading = match self.lifting {
            Lifting::RoundsDown => Reading::RoundsDown,
            _ => Reading::Right,
        };
        let gives = Translation { program: self.program, reading };
        // 02: "A lift stops at the far end of the head's range"
        let declared = format!("L = {low}, H = {high}");
        let lent = format!("lent@(P,{h},L,H)");
        let range = if self.lifting == Lifting::DeclaredFar { &declared } else { &lent };
        let (name, far) = if above { ("le", "L") } else { ("ge", "H") };
        let mut body = vec!["list@(P)".to_string()];
        body.extend((0..rule.terms.len()).map(|i| self.read(rule, i)));
        body.extend(gives.given(rule));
        body.push(range.clone());
        let can = match self.lifting {
            Lifting::IdleOut => format!(", can({number})"),
            _ => String::new(),
        };
        let body = body.join(", ") + &can;
        let past = gives.past(rule, far);
        // What holds at the starting end is there already.
        let mut values = match (rule.form, above) {
            (QUOTIENT, false) => format!("V = {}..H, {}", low + 1, gives.past(rule, "V - 1")),
            (QUOTIENT, true) => format!("V = L..{}, {}", high - 1, gives.past(rule, "V + 1")),
            (_, false) => format!("V > {low}, V <= H"),
            (_, true) => format!("V < {high}, V >= L"),
        };
        let mut out = format!("cut@(P,{h}) :- {body}, {past}.\n");
        if self.lifting == Lifting::PastIsNothing {
            values += &format!(", not {past}");
        } else {
            let _ = writeln!(out, "{name}@(P,{h},{far}) :- cut@(P,{h}), {range}.");
        }
        let _ = writeln!(out, "{name}@(P,{h},V) :- {body}, {values}.");
        let is_mixed = |t: usize| moved(self.program, rule, t, Reading::Right) == Moved::Both;
        for i in (0..rule.terms.len()).filter(|&i| is_mixed(i)) {
            let x = rule.terms[i].variable;
            let range = if self.lifting == Lifting::MixedToDeclared { &declared } else { range };
            let _ = writeln!(out, "{name}@(P,{h},{far}) :- list@(P), open@(P,{x}), {range}{can}.");
        }
        out
    }
}
