//! How much the brute force has tried.

macro_rules! counts {
    ($tried:ident, $($all:ident)*; $($(#[$says:meta])* $name:ident,)*) => {
        #[derive(Default, Debug)]
        pub struct $tried {
            $(pub $all: usize,)*
            $($(#[$says])* pub $name: usize,)*
        }

        impl $tried {
            /// What has to be tried often enough, by name.
            pub fn each(&self) -> Vec<(&'static str, usize)> {
                vec![$((stringify!($name), self.$name),)*]
            }
        }
    };
}

counts! {
    Tried, programs assignments sets;
    invalid,
    stable,
    unfounded,
    /// Pairs of a shown set and a stable assignment meeting its conditions.
    kept_below,
    no_model,
    /// Assignments outside their ranges.
    outside,
    /// Assignments by which a divisor above 1 divides a sum evenly, leaves a
    /// remainder, and leaves one of a negative sum.
    even,
    uneven,
    uneven_below,
    /// Stable and unfounded ones among those with a remainder.
    uneven_stable,
    uneven_unfounded,
    /// Programs that are valid only because some rule is idle, and those in
    /// which another rule offends because of that.
    idle_valid,
    idle_moved,
    /// Stable and unfounded assignments of programs that are so valid.
    idle_stable,
    idle_unfounded,
    /// Reports without room for another entry.
    full,
    /// Programs without a variable of kind 2, with kinds 1 and 2, and with both
    /// in one component.
    below_only,
    both_kinds,
    both_in_component,
    /// Programs in which a rule for kind 2 offends, and those that are valid
    /// only because such a rule is idle.
    above_invalid,
    above_idle_valid,
    /// Assignments against a rule for kind 2.
    above_rule,
    /// Stable assignments with a variable of kind 2 below its high.
    above_stable,
    /// Reports with mark 3, with both marks, and with 3 before 0.
    above_unfounded,
    both_unfounded,
    interleaved,
    /// As `kept_below`, of sets with a variable of kind 2.
    kept_above,
    /// Reducts without a model, no variable being of kind 1.
    above_no_model,
    /// Assignments by which a divisor of a rule for kind 2 leaves a remainder
    /// of a negative sum.
    above_uneven_below,
}

// Of the normal form.
counts! {
    Anew, programs;
    /// Programs whose normal form has other bytes, and fewer.
    rewritten,
    shorter,
    /// Stable assignments of those with other bytes; those with more than one,
    /// and with none.
    stable,
    several,
    without,
}

// Of the walk over edges.
counts! {
    Stepped, programs;
    /// Edges, those that an idle rule would draw, and those to a standard
    /// variable.
    edges,
    left_out,
    to_standard,
    /// Rounds in which something is taken in, and others.
    moved,
    unmoved,
    /// Programs with a component of several variables, and with two of them
    /// joined one way.
    shared,
    one_way,
    /// Programs that are refused, those with a mixed position in a rule that is
    /// not idle, and those with one inside a component in one that is.
    invalid,
    mixed_outside,
    mixed_idle,
}

// Of flattening.
counts! {
    Nests, programs assignments models;
    /// Nested files that are refused as not valid, and those that are so only
    /// because of a tree.
    invalid,
    invalid_by_trees,
    /// Nested files valid only because a new rule is idle.
    valid_by_idle,
    /// Stable and unfounded assignments of nested files, and those against a tree.
    stable,
    unfounded,
    against_tree,
    against_constraint,
    /// Nested files with several stable assignments, and with none.
    several,
    without,
    /// Stable assignments in which the head of a tree has moved, and those in which
    /// the tree alone moves it.
    moved,
    moved_by_tree,
    /// Added variables of kinds 1 and 2.
    added_below,
    added_above,
    /// Ranges of them that were tried, and those with one value.
    ranges,
    single,
    /// Leaves that are kept, and those that are replaced: standard ones, and founded
    /// ones of the other kind.
    kept,
    standard,
    other_kind,
    /// Nested files with a head at its own leaf, with several trees, and with a circle
    /// through a tree.
    own_leaf,
    several_trees,
    circles,
    /// Stable and unfounded assignments of those with a circle.
    circle_stable,
    circle_unfounded,
    /// Plans whose added values were taken from the least model: what check says.
    least_stable,
    least_unfounded,
    least_rule,
    least_constraint,
}

// Of bounds.
counts! {
    Halves, programs models;
    /// Files that are refused as not valid.
    invalid,
    /// Ranges that were lent, and those that are all single.
    ranges,
    all_single,
    /// Ranges with a standard variable that is not single.
    standard_not_single,
    /// Stable assignments inside the ranges.
    inside,
    /// Ranges with a stable assignment inside, with one inside and one outside, and
    /// with all of them outside.
    some_inside,
    some_inside_not_all,
    none_inside,
    /// Ranges of which one is empty when drawn in to the bounds; those of files that
    /// have a stable assignment.
    empty,
    empty_of_stable,
    /// Ranges drawn in and not empty, and those with a stable assignment inside.
    drawn_in,
    drawn_in_around,
    /// Ranges by which a variable of kind 1 is lifted, one of kind 2, and both.
    below_lifted,
    above_lifted,
    both_lifted,
    /// Ranges with a bound at a lent far end that is not the declared one.
    at_lent_far,
    /// Rules with a mixed variable that is single; with one that is not, the head
    /// lifted; those that are idle.
    mixed_single,
    mixed_far,
    mixed_idle,
    /// Stable assignments inside ranges with a mixed variable that is not single.
    mixed_stable,
}
