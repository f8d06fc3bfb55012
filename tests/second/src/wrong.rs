//! Deliberate mistakes. The selftest shows that the generator finds an input
//! on which each of them answers differently from the checker.

macro_rules! mistakes {
    (
        $($(#[$says:meta])* $name:ident,)*;
        $($(#[$tells:meta])* $normal:ident,)*;
        $($(#[$shows:meta])* $walk:ident,)*;
        $($(#[$points:meta])* $nested:ident,)*;
        $($(#[$marks:meta])* $ranged:ident,)*
    ) => {
        #[derive(Clone, Copy, Debug, PartialEq, Eq)]
        pub enum Wrong {
            Nothing,
            $($(#[$says])* $name,)*
            $($(#[$tells])* $normal,)*
            $($(#[$shows])* $walk,)*
            $($(#[$points])* $nested,)*
            $($(#[$marks])* $ranged,)*
        }

        impl Wrong {
            /// Mistakes of reading, least, check and print.
            pub const ALL: &'static [Wrong] = &[$(Wrong::$name,)*];
            /// Mistakes of the normal form alone.
            pub const NORMAL: &'static [Wrong] = &[$(Wrong::$normal,)*];
            /// Mistakes of the walk over edges.
            pub const WALK: &'static [Wrong] = &[$(Wrong::$walk,)*];
            /// Mistakes of flattening.
            pub const NESTED: &'static [Wrong] = &[$(Wrong::$nested,)*];
            /// Mistakes of bounds.
            pub const RANGED: &'static [Wrong] = &[$(Wrong::$ranged,)*];
        }
    };
}

mistakes! {
    /// Standard variables are kept in the reduct and fall to their low.
    KeepsStandard,
    /// Founded variables start at 0 and not at low.
    StartsAtZero,
    /// Every condition on a variable of the set is dropped, kept or not.
    DropsAllOfSet,
    /// The dependency graph also has falling edges.
    DrawsFalling,
    /// Mark 2 stands before mark 1.
    MarkTwoFirst,
    /// Size is mixed though low is 0.
    MixedAtZero,
    /// Refusal 8 is tried before refusal 7.
    EightBeforeSeven,
    /// Refusal 10 is tried before refusal 9.
    TenBeforeNine,
    /// Refusal 15 is tried before refusal 14.
    FifteenBeforeFourteen,
    /// A cut header with an unknown tag is called 3.
    ThreeBeforeTwo,
    /// The 257th variable is called 6 or 7 when its contents are wrong.
    FiveLate,
    /// The head counts as a variable of its own body for refusal 11.
    HeadCountsTwice,
    /// Names the last offending rule in refusal 13.
    LastOffender,
    /// a >= |a| passes, for the search needs two different variables.
    LoopPasses,
    /// Op 2 also holds at the number itself.
    BelowOrEqual,
    /// `if` looks only at its first literal.
    FirstLiteralOnly,
    /// Falling variables are kept in the reduct.
    KeepsFalling,
    /// Only the first variable of the set is shown.
    ShowsFirstOnly,
    /// Every assigned value is shown as a condition.
    ShowsEverything,
    /// A condition is shown once for every rule that needs it.
    ShowsTwice,
    /// Every variable on a circle is called unfounded.
    StrikesCircles,
    /// Rules are gone through once only.
    OneRound,
    /// Rules are gone through 40 times and no more.
    FortyRounds,
    /// `none` is said as soon as a rule is unmet at the lows.
    NoneAtOnce,
    /// Least writes the assignment back.
    HandsBack,
    /// Sums are cut to two bytes.
    ShortSums,
    /// A rule that gives nothing gives 0.
    NothingIsZero,
    /// A report one byte short is good enough.
    OneByteShort,
    /// Constraints are looked at before rules.
    ConstraintsFirst,
    /// Only founded variables are tried for `range`.
    RangeOfFounded,
    /// Coefficient 1,000 is out of range.
    CoefficientShort,
    /// Bytes after the last entry are cleared.
    ClearsRest,
    /// Products are cut to two bytes.
    ShortProducts,
    /// 17 terms are called 10 and not 6.
    SeventeenIsTen,
    /// A number or c that must be 0 is called 8 when it is out of all range.
    BigZeroIsEight,
    /// A carry of one plain term is called 7 and not 10.
    CarryOneIsSeven,
    /// 7 and 8 are tried together, term by term.
    TermByTerm,
    /// Only circles of one or two rules are seen by refusal 13.
    ShortCircles,
    /// Least asks for 12 bytes a variable.
    LeastAsksTwelve,
    /// Only variables of the head's own component are kept.
    KeepsOwnComponent,
    /// A head in its own body is kept though it is falling.
    HeadAlwaysKept,
    /// A sum over a divisor is rounded down.
    RoundsDown,
    /// A sum over a divisor is rounded towards 0.
    RoundsToZero,
    /// A negative sum over a divisor is rounded away from 0.
    RoundsAway,
    /// c is added after dividing.
    ConstantLate,
    /// All terms of form 8 are rising.
    QuotientRises,
    /// A divisor of 0 passes.
    DivisorZeroPasses,
    /// A divisor of 1,001 passes.
    DivisorOverPasses,
    /// A divisor may have any variable byte.
    DivisorNamesAny,
    /// The divisor and a term of variable 0 are called a repeat.
    DivisorRepeats,
    /// The divisor draws an edge to variable 0.
    DivisorDrawsEdge,
    /// The divisor makes variable 0 a condition.
    DivisorIsCondition,
    /// 17 groups pass in form 1.
    SeventeenPass,
    /// 17 groups are called 6 in form 8 too.
    EightLikeOthers,
    /// An unknown form may have 17 groups, and is called 7.
    UnknownLikeEight,
    /// A constraint of form 8 may have 17 groups, and is called 7.
    ConstraintLikeEight,
    /// Form 8 without a group is called 8.
    NoGroupIsEight,
    /// Form 8 with the divisor alone is called 10.
    AloneIsTen,
    /// No rule is idle.
    IdleNever,
    /// A rule that gives one more than its head's low is idle.
    IdleOneMore,
    /// A rule that gives its head's low is not idle.
    IdleBelowOnly,
    /// A rule is idle by its head's high.
    IdleByHigh,
    /// A rule is idle when it gives at most 0.
    IdleByZero,
    /// A rule is idle by the least that it can give.
    IdleByLeast,
    /// An idle rule draws edges.
    IdleDraws,
    /// An idle rule may offend.
    IdleOffends,
    /// Where another rule offends, an idle one before it is named.
    IdleNamesPlace,
    /// No edge is drawn by a rule after an idle one.
    IdleEndsEdges,
    /// No rule after an idle one offends.
    IdleEndsSearch,
    /// Every rule is idle whose head has an idle rule.
    IdleWholeHead,
    /// Only rules with literals can be idle.
    IdleLiteralsOnly,
    /// Only sizes can be idle.
    IdleSizesOnly,
    /// A rule of form 8 is never idle.
    IdleNoQuotients,
    /// Only a rule with a literal that never holds is idle.
    IdleFailingOnly,
    /// `if` is not idle by its c.
    IdleIfFailingOnly,
    /// A literal that never holds is passed over.
    IdleFailingGives,
    /// A rule can give when one of its literals can hold.
    IdleAllFail,
    /// Op 1 never holds when its number is the high.
    IdleAtLeastEarly,
    /// Op 1 can hold when its number is one above the high.
    IdleAtLeastLate,
    /// Op 2 never holds when its number is one above the low.
    IdleBelowEarly,
    /// Op 2 can hold when its number is the low.
    IdleBelowLate,
    /// The most of a mixed size is at the low.
    IdleSizeAtLow,
    /// The most of a mixed size is at the high.
    IdleSizeAtHigh,
    /// The most over a divisor is rounded down.
    IdleRoundsDown,
    /// The most over a divisor is rounded towards 0.
    IdleRoundsToZero,
    /// A negative most over a divisor is rounded away from 0.
    IdleRoundsAway,
    /// The most of form 8 is not divided.
    IdleUndivided,
    /// The most of form 8 has c added after dividing.
    IdleConstantLate,
    /// The most is without c.
    IdleNoConstant,
    /// The most is cut to two bytes.
    IdleShort,
    /// The most of form 2 is by the smallest high.
    IdleMaxAsMin,
    /// The most of form 3 is by the largest high.
    IdleMinAsMax,
    /// The most of form 7 is c alone.
    IdleCarriesNothing,
    /// For the most, every variable is at its high.
    IdleAllHigh,
    /// For the most, only the first term counts.
    IdleFirstTerm,
    /// For the most, the head in its own body is at its low.
    IdleHeadAtLow,
    /// For the most, standard variables are 0.
    IdleStandardZero,
    /// For the most, standard variables are passed over.
    IdleStandardSkipped,
    /// A rule with a standard variable is never idle.
    IdleNoStandard,
    /// For the most, founded variables without a rule are at their low.
    IdleUnlifted,
    /// An idle rule asks no condition.
    IdleNoConditions,
    /// A mixed position of an idle rule is rising.
    IdleNotMixed,
    /// No position of an idle rule is kept.
    IdleNotKept,
    /// Reading does not count idle rules.
    IdleNotCounted,
    /// `rule` does not number idle rules.
    IdleNotNumbered,
    /// Idle rules do not count for refusal 5.
    IdleNotLimited,
    // Kind 2, founded from above.
    /// Kind 2 is refused with 7.
    KindTwoRefused,
    /// A head of kind 2 is refused with 9.
    KindTwoHeadRefused,
    /// Kind 3 is accepted.
    KindThreePasses,
    /// Kind 2 is read as kind 1.
    KindTwoIsOne,
    /// A product may have a variable of kind 2 with low below 0.
    AboveProductPasses,
    /// In a rule for kind 2 literals swap too.
    LiteralsSwap,
    /// In a rule for kind 2 plain terms do not swap.
    PlainUnswapped,
    /// In a rule for kind 2 standard variables do not swap.
    StandardUnswapped,
    /// In a rule for kind 2 the head itself does not swap.
    OwnHeadUnswapped,
    /// In a rule for kind 2 a carried variable does not swap.
    CarriedUnswapped,
    /// In a rule for kind 2 the variable of a size does not swap.
    SizeUnswapped,
    /// In a rule for kind 2 the variables of a product do not swap.
    ProductUnswapped,
    /// In a rule for kind 2 the variables of forms 2 and 3 do not swap.
    LargestUnswapped,
    /// In a rule for kind 2 the terms of form 8 do not swap.
    QuotientUnswapped,
    /// Plain terms swap where the variable is of kind 2, not the head.
    SwapsByVariable,
    /// A falling variable of kind 2 is read as assigned.
    AboveNotKept,
    /// A rising variable of kind 2 is kept.
    AboveRisingKept,
    /// A variable of kind 2 is kept in rules for kind 2 only.
    AboveKeptAmongAbove,
    /// A variable of kind 1 is kept in rules for kind 1 only.
    BelowKeptAmongBelow,
    /// A variable of kind 2 is not kept in a literal.
    AboveNotKeptInLiteral,
    /// A variable of kind 2 starts at its low.
    AboveFromLow,
    /// Of several rules for a head of kind 2 the largest value counts.
    AboveLargerCounts,
    /// A rule for kind 2 that gives less than the low leaves it at its low.
    AboveNoFloor,
    /// `none` is said where a rule for kind 2 gives more than the high.
    AboveCeiling,
    /// A rule for kind 2 rounds a sum over a divisor down.
    AboveRoundsDown,
    /// A rule for kind 2 is unmet when it gives more than its head has.
    AboveUnmetByMore,
    /// Of a variable of kind 2, op 1 means at most its number.
    AboveOpsTurned,
    /// A variable of kind 2 is in the set when its least value is below.
    AboveSetTurned,
    /// The bound entry of kind 2 has mark 0.
    AboveMarkZero,
    /// The bound entry of kind 2 shows the high.
    AboveShowsHigh,
    /// Bound entries stand by mark, then by variable.
    GroupedByMark,
    /// A falling variable of kind 2 is asked to be at most its value.
    AboveFallingAtMost,
    /// At most and at least are turned for variables of kind 2.
    AboveConditionsTurned,
    /// At most and at least are turned in rules for kind 2.
    AboveRulesTurned,
    /// In a rule for kind 2 a falling position asks at most, too.
    AboveFallingBoth,
    /// A rising variable of kind 2 that is in the set is no condition.
    AboveRisingNoCondition,
    /// A kept variable of kind 2 that is in the set is a condition.
    AboveKeptCondition,
    /// In a rule for kind 2 a mixed variable asks at least alone.
    AboveMixedOnce,
    /// Mark 3 prints `most`.
    PrintsMost,
    /// No edge runs to a falling variable of kind 2.
    NoEdgeToAbove,
    /// An edge runs to a rising variable of kind 2.
    EdgeToRisingAbove,
    /// A rule for kind 2 draws an edge to a falling variable of kind 1.
    EdgeToFallingBelow,
    /// No edge runs to a mixed variable.
    EdgesToKeptOnly,
    /// A rule for kind 2 draws no edge.
    AboveDrawsNone,
    /// Variables of different kinds share no component.
    ComponentOfOneKind,
    /// A rule for kind 2 never offends.
    AboveNeverOffends,
    /// No rule for kind 2 is idle.
    AboveIdleNever,
    /// A rule for kind 2 that gives one less than the high is idle.
    AboveIdleOneLess,
    /// A rule for kind 2 that gives the high is not idle.
    AboveIdleOverOnly,
    /// A rule for kind 2 is idle by its head's low.
    AboveIdleByLow,
    /// A rule for kind 2 is idle by the most that it can give.
    AboveIdleByMost,
    /// A rule for kind 2 is idle when the most it can give is at most the low.
    AboveIdleAsBelow,
    /// A rule for kind 2 with a literal that never holds is idle by the others.
    AboveFailingGives,
    /// In a rule for kind 2 literals are tried where plain terms give least.
    AboveLiteralsAtLow,
    /// The least of a mixed size is at the low.
    AboveSizeAtLow,
    /// The least of a mixed size is at the high.
    AboveSizeAtHigh,
    /// The least of a mixed size is at the end nearer to 0.
    AboveSizeAtNearer,
    /// The least of a size is 0 in any range.
    AboveSizeAtZero,
    /// The least over a divisor is rounded down.
    AboveLeastRoundsDown,
    /// The least over a divisor is rounded towards 0.
    AboveLeastRoundsToZero,
    /// The least of form 8 is not divided.
    AboveLeastUndivided,
    /// The least is without c.
    AboveLeastNoConstant,
    /// The least is cut to two bytes.
    AboveLeastShort,
    /// For the least, every variable is at its low.
    AboveLeastAllLow,
    /// The least of form 2 is by the smallest low.
    AboveLeastMaxAsMin,
    /// The least of form 3 is by the largest low.
    AboveLeastMinAsMax,
    /// The least of form 7 is c alone.
    AboveLeastCarriesNothing,
    /// The least of a product is 0 and c.
    AboveLeastProductZero,
    /// For the least, only the first term counts.
    AboveLeastFirstTerm,
    /// For the least, the head in its own body is at its high.
    AboveLeastHeadAtHigh,
    /// For the least, standard variables are 0.
    AboveLeastStandardZero,
    ;
    /// 17 is tried before the file's own refusals.
    SeventeenFirst,
    /// The lent buffer is compared with the output.
    BufferByOutput,
    /// A buffer one byte shorter than the file is good enough.
    OneShortWritten,
    /// A buffer as long as the file is too short.
    BufferMustBeLonger,
    /// An empty buffer is too short for the empty file.
    EmptyBufferRefused,
    /// The place of 17 is the buffer's length.
    SeventeenHasPlace,
    /// What fits is written though the buffer is too short.
    RefusedWrites,
    /// A file that is not valid is written anew.
    InvalidWritten,
    /// The length of the input is answered.
    AnswersInputLength,
    /// Bytes after the output are cleared.
    ClearsBehind,
    /// The input's last bytes stand after the output.
    LeavesInput,
    /// The output stands at the end of the buffer.
    WritesAtEnd,
    /// Equal variables are written once.
    VariablesMerged,
    /// Variables are sorted too.
    VariablesSorted,
    /// Constraints stand before rules.
    ConstraintsBeforeRules,
    /// Repeats stay.
    RepeatsKept,
    /// Repeated rules stay.
    RuleRepeatsKept,
    /// Repeated constraints stay.
    ConstraintRepeatsKept,
    /// Repeats are dropped before terms are ordered.
    RepeatsBeforeTerms,
    /// Only repeats that are neighbours in the input are dropped.
    NeighboursDropped,
    /// Of more than two equal fields one is dropped.
    OneRepeatDropped,
    /// A field that is repeated is not written at all.
    RepeatsAllDropped,
    /// Fields that agree but for the last byte are repeats.
    RepeatsButLast,
    /// Fields that agree in their terms are repeats, whatever c is.
    RepeatsByTerms,
    /// Rules stay in the order of the file.
    RulesUnsorted,
    /// Constraints stay in the order of the file.
    ConstraintsUnsorted,
    /// Fields are sorted 256 at a time.
    SortsBlocks,
    /// Fields are sorted by one pass over neighbours.
    SortsOnePass,
    /// Fields are compared by signed bytes.
    SignedBytes,
    /// c is compared as a number.
    ConstantAsNumber,
    /// Only values are compared, not lengths.
    ValuesOnly,
    /// A longer field stands before a shorter one.
    LongerFirst,
    /// Fields are descending.
    FieldsDescending,
    /// Rules are sorted by their heads first.
    HeadsFirst,
    /// Fields are compared from their last byte on.
    LastByteFirst,
    /// Forms are compared last.
    FormLast,
    /// 7 bytes are compared: all before a rule's terms.
    StopsAfter7,
    /// 8 bytes are compared.
    StopsAfter8,
    /// 16 bytes are compared.
    StopsAfter16,
    /// 32 bytes are compared.
    StopsAfter32,
    /// 64 bytes are compared.
    StopsAfter64,
    /// All bytes but the last are compared.
    StopsBeforeLast,
    /// The carried variable is sorted in.
    CarriedSorted,
    /// The literals of a carry are not ordered.
    CarryUnordered,
    /// The divisor and the terms are sorted by all their bytes.
    DivisorBehindZero,
    /// The divisor stands last.
    DivisorLast,
    /// The divisor and the terms are sorted by their numbers.
    DivisorByNumber,
    /// The terms of form 8 are not ordered.
    QuotientUnordered,
    /// The terms of form 1 are not ordered.
    SumUnordered,
    /// The terms of max are not ordered.
    MaxUnordered,
    /// The terms of min are not ordered.
    MinUnordered,
    /// The factors of a product are not ordered.
    ProductUnordered,
    /// The literals of form 6 are not ordered.
    IfUnordered,
    /// No literals are ordered.
    LiteralsUnordered,
    /// The terms of constraint form 1 are not ordered.
    ConstraintSumUnordered,
    /// The literals of constraint form 2 are not ordered.
    ConstraintLiteralsUnordered,
    /// The first term stays first in every form.
    FirstTermStays,
    /// Terms are descending.
    TermsDescending,
    /// Variables of terms are compared as signed bytes.
    TermsSigned,
    /// Terms are sorted by their numbers.
    TermsByNumber,
    /// Literals of op 1 stand before those of op 2.
    LiteralsByOp,
    /// Terms are sorted by one pass over neighbours.
    TermsOnePass,
    /// Only the first 8 terms are ordered.
    EightTermsOrdered,
    /// The 16th term stays where it is.
    SixteenthStays,
    /// Form 8 with divisor 1 is written as form 1.
    OneIsSum,
    /// Idle rules are left out.
    IdleLeftOut,
    ;
    // The sets before the first round.
    /// Begin refuses with 13.
    BeginThirteen,
    /// 15 is tried before the file's own refusals.
    FifteenBeforeOwn,
    /// The place of 15 is the number of words.
    FifteenHasPlace,
    /// Sets one word short are good enough.
    BeginOneShort,
    /// Sets just long enough are too short.
    BeginMustBeLonger,
    /// No word is too short for a file without variables.
    BeginNoneRefused,
    /// Words are asked for all 256 numbers.
    BeginAsksAll,
    /// Four bytes are asked for each variable, and not four words.
    BeginAsksBytes,
    /// What fits is written though the sets are too short.
    BeginShortWrites,
    /// A refusal of the file clears the words.
    BeginRefusedClears,
    /// Words after the sets are cleared.
    BeginClearsAfter,
    /// Edges are put to what the words had.
    BeginAdds,
    /// Bits of numbers that are no variable keep what they had.
    BeginKeepsHigh,
    /// Words are answered, and not variables.
    BegunWords,
    /// The founded variables are counted.
    BegunFounded,
    /// The sets are those after the last round.
    BeginAfterRounds,
    /// No edge is drawn where no position is mixed.
    BeginUnmixedEmpty,
    /// No edge is drawn where the file is refused with 13.
    BeginInvalidEmpty,
    /// Edges run from the body to the head.
    EdgesBackwards,
    /// Edges run both ways.
    EdgesBothWays,
    /// An edge runs to every rising standard variable.
    StandardDrawn,
    /// An edge runs to no standard variable, mixed or not.
    StandardNeverDrawn,
    /// No edge runs to a kept variable.
    KeptLeftOut,
    /// An edge runs to every body variable.
    EveryVariableDrawn,
    /// A rule draws its first edge alone.
    FirstEdgeOnly,
    /// Of the rules for a head the last one draws.
    LastRuleDraws,
    /// Each variable is in its own set: a walk of no edge counts.
    SelfReached,
    /// No variable has an edge to itself.
    SelfLeftOut,
    /// Bit 63 stands for the first variable of a word.
    BitsTurned,
    /// The first word of a set has the last numbers.
    WordsTurned,
    /// The first words of all sets stand first, then the second ones.
    WordsFirst,
    // A round.
    /// The last variable has the first round.
    RoundsDescending,
    /// The round is that of the variable before.
    RoundBefore,
    /// The round is that of the next variable.
    RoundNext,
    /// The set of k takes in the sets that have k.
    JoinsIntoK,
    /// The set of k takes in the sets of those it has.
    KTakesIn,
    /// A set takes in the set of k where k has its variable, too.
    JoinsBothWays,
    /// Every set takes in the set of k.
    EverySetJoins,
    /// The last set is left out.
    LastSetOut,
    /// The first set is left out.
    FirstSetOut,
    /// Only sets after that of k take it in.
    LaterSetsJoin,
    /// Only sets before that of k take it in.
    EarlierSetsJoin,
    /// Sets after those of the variables take in the set of k.
    SetsAfterJoin,
    /// A set that has k becomes the set of k.
    StepReplaces,
    /// The first word alone is taken in.
    FirstWordJoins,
    /// The last word is not taken in.
    LastWordOut,
    /// Only variables are taken in.
    VariablesJoin,
    /// A variable is not taken into its own set.
    StepSelfLeftOut,
    /// Rounds go on until nothing moves.
    StepToTheEnd,
    /// k may be the number of variables.
    StepAtVariables,
    /// Of k the last byte is read.
    StepShortK,
    /// 257 variables are stepped.
    StepTakes257,
    /// 256 variables are too many for a step.
    StepRefuses256,
    /// A step takes sets one word short.
    StepOneShort,
    /// A step refuses sets just long enough.
    StepMustBeLonger,
    /// A step asks for so many words as four times the variables have in 64 bits.
    StepWraps,
    /// A refused step is made where there are words.
    StepRefusedWrites,
    /// A step answers whether something has moved.
    StepAnswersMoved,
    // The components.
    /// The byte is the last variable of the component.
    ComponentLast,
    /// The byte is the variable itself.
    ComponentOwn,
    /// The byte is the first variable that is reached.
    ComponentOneWay,
    /// The byte is the first variable that reaches this one.
    ComponentComesFrom,
    /// Reaching one way is enough.
    ComponentEither,
    /// A variable on no circle has byte 0.
    ComponentNeedsCircle,
    /// Components are numbered from 0.
    ComponentNumbered,
    /// The byte is that of the first variable found.
    ComponentPassedOn,
    /// Only variables below 64 are looked at.
    ComponentFirstWord,
    /// The sets of the next variable are looked at.
    ComponentOneOff,
    /// Bytes after the last variable are cleared.
    ComponentsClearAfter,
    /// A buffer one byte short is good enough for the components.
    ComponentsByteShort,
    /// A buffer just long enough is too short for the components.
    ComponentsByteMore,
    /// 0 variables are refused.
    ComponentsNoneRefused,
    /// The components of 257 variables are written.
    ComponentsTake257,
    /// 256 variables are too many for the components.
    ComponentsRefuse256,
    /// The components take sets one word short.
    ComponentsOneShort,
    /// The components refuse sets just long enough.
    ComponentsMustBeLonger,
    /// The components ask for so many words as four times the variables have in 64 bits.
    ComponentsWrap,
    /// Refused components are written where there is room.
    ComponentsRefusedWrite,
    // Refusal 13.
    /// Refusal 13 is decided before the last round.
    LastRoundOut,
    /// Refusal 13 is decided without the first round.
    FirstRoundOut,
    /// A mixed variable offends wherever it stands.
    MixedOffends,
    ;
    /// An input over 60,000 bytes is judged field by field.
    NestedOneNever,
    /// An output over 60,000 bytes is called 1.
    FlatOneByOutput,
    /// 4 is tried before 3 after a tag 5.
    TreeFourBeforeThree,
    /// Tags 1 to 3 after a tag 5 are called 3.
    TreeLowerTagsThree,
    /// Tags above 5 are read as tag 5.
    TreeSixPasses,
    /// A field of tag 5 that is cut short is called 18.
    TreeCutEighteen,
    /// Eight levels are too deep.
    TreeSevenLevels,
    /// Nine levels pass: a leaf is no level.
    TreeNineLevels,
    /// Any depth passes.
    TreeAnyDepth,
    /// Levels are counted along first children only.
    TreeDepthOfFirst,
    /// Bytes left over pass.
    TreeBytesOver,
    /// A child count of 0 passes.
    TreeCountZero,
    /// 17 children pass.
    TreeCountSeventeen,
    /// 16 children are refused.
    TreeCountFifteen,
    /// A node byte above 3 is read as a sum.
    TreeUnknownSum,
    /// A node byte above 3 is read as a leaf.
    TreeUnknownLeaf,
    /// Children that are cut off are left out.
    TreeCutPasses,
    /// A value without head or tree is called 6.
    TreeBareSix,
    /// The head is judged before the tree.
    TreeHeadBefore,
    /// 18 is tried after 5.
    EighteenAfterFive,
    /// 9 is tried before 5.
    NineBeforeFive,
    /// 5 is tried after 11.
    FiveAfterEleven,
    /// 5 is tried after 19.
    FiveLast,
    /// 11 is tried before 9.
    ElevenBeforeNine,
    /// 19 is tried before 11.
    NineteenBeforeEleven,
    /// 19 is tried before 9.
    NineteenBeforeNine,
    /// Leaves may name variables that trees before have added.
    TreeAddedDeclared,
    /// Leaves may name variables that their own tree adds.
    TreeOwnDeclared,
    /// Heads may be variables that trees before have added.
    TreeHeadAdded,
    /// A standard head passes.
    TreeStandardHead,
    /// A head of kind 2 is refused.
    TreeHeadTwoRefused,
    /// A head that is not declared is read as variable 0.
    TreeHeadUnjudged,
    /// A leaf that is not declared is read as variable 0.
    TreeLeafUnjudged,
    /// A standard leaf is refused.
    TreeStandardLeaf,
    /// 11 is judged among the children of each node.
    ElevenByNode,
    /// 11 is judged over all trees.
    ElevenAcross,
    /// The head counts as a leaf for 11.
    ElevenHead,
    /// 11 looks at leaves that follow one another.
    ElevenNeighbours,
    /// A variable may stand at any number of leaves.
    ElevenNever,
    /// 5 does not count the variables that trees add.
    FiveNoVariables,
    /// 5 does not count the rules that trees add.
    FiveNoRules,
    /// 5 does not count what the trees before have added.
    FiveOwnTree,
    /// 5 counts a variable for the root.
    FiveRootCounted,
    /// 5 counts one rule for a tree.
    FiveOneRule,
    /// 257 variables pass.
    FiveVariableMore,
    /// 256 variables are too many.
    FiveVariableLess,
    /// 2,049 rules pass.
    FiveRuleMore,
    /// 2,048 rules are too many.
    FiveRuleLess,
    /// The 513th tree is one too many.
    FiveTrees,
    /// 19 is judged on the root, too.
    NineteenRoot,
    /// No range is judged.
    NineteenNever,
    /// 19 is judged on nodes whose children are all leaves.
    NineteenLowest,
    /// 19 is judged on the children of the root.
    NineteenUnderRoot,
    /// 19 looks at highs only.
    NineteenHighOnly,
    /// 19 looks at lows only.
    NineteenLowOnly,
    /// A range that ends at 30,000 is refused.
    NineteenWhole,
    /// A range that ends at 30,001 passes.
    NineteenLate,
    /// Values of nodes are taken in two bytes.
    NineteenShort,
    /// An added range must lie in the head's.
    NineteenByHead,
    /// A node has the range of its first child.
    RangeFirstChild,
    /// The low of a max is the least of its children's.
    RangeHullMax,
    /// The high of a min is the largest of its children's.
    RangeHullMin,
    /// A sum has the range of a max.
    RangeSumAsMax,
    /// Added variables have the whole range.
    RangeWide,
    /// Added variables have the head's range.
    RangeOfHead,
    /// Standard leaves are 0 for ranges.
    RangeStandardZero,
    /// Leaves founded from above are at their high for ranges.
    RangeAboveAtHigh,
    /// Added variables are of kind 1.
    AddedKindOne,
    /// An added variable whose leaves are all standard is standard.
    AddedStandard,
    /// An added variable has the kind of its first leaf, if that is founded.
    AddedKindOfLeaf,
    /// Max becomes a min and min a max.
    FormsExchanged,
    /// The root's rule is a sum.
    RootSum,
    /// A leaf root is a max of one.
    LeafRootMax,
    /// A leaf root gives no rule.
    LeafRootLeftOut,
    /// A node with one child gets no variable.
    OneChildMerged,
    /// The root gets a variable, too.
    RootAdded,
    /// Children stand in reverse order.
    ChildrenBackwards,
    /// Children stand by ascending variable.
    ChildrenSorted,
    /// Leaves stand before other children.
    LeavesFirst,
    /// Terms of sums have number 0.
    CoefficientZero,
    /// Terms of max and min have number 1.
    LargestNumberOne,
    /// c is 1.
    ConstantOne,
    /// A node is numbered after its children.
    NumbersAfterChildren,
    /// Nodes are numbered level by level.
    NumbersByLevel,
    /// A later child's nodes are numbered first.
    NumbersSiblingsBackwards,
    /// Later trees are numbered first.
    NumbersTreesBackwards,
    /// A root's rule stands after those of its tree.
    RulesRootLast,
    /// A node's rule stands after those of its children.
    RulesAfterChildren,
    /// Rules of a tree stand level by level.
    RulesByLevel,
    /// A later child's rules stand first.
    RulesSiblingsBackwards,
    /// The rules of all roots stand before the others.
    RulesRootsFirst,
    /// Rules of later trees stand first.
    RulesTreesBackwards,
    /// New rules stand before the old.
    RulesBeforeOld,
    /// New variables stand before the old.
    VariablesBeforeOld,
    /// Constraints stand before the new rules.
    ConstraintsBeforeNew,
    /// The place of 13 is that in the plain file.
    ThirteenInPlain,
    /// The place of 13 is that of the first tree.
    ThirteenAtTree,
    /// 13 is judged with each tree as one rule.
    ThirteenWholeTrees,
    /// 13 is judged without the trees.
    ThirteenWithoutTrees,
    /// No new rule is idle.
    ThirteenNewNeverIdle,
    /// Edges run to all leaves.
    ThirteenAllLeaves,
    /// 17 is tried before 13.
    ThirteenAfterSeventeen,
    /// 13 is not judged where the output is over 60,000 bytes.
    ThirteenFits,
    /// A plain file that is not valid is written.
    ThirteenNever,
    /// The lent buffer is compared with the input.
    FlatByInput,
    /// The place of 17 is the length of the output.
    FlatSeventeenHasPlace,
    /// An output of 60,000 bytes is refused.
    FlatSixtyRefused,
    /// An output over 60,000 bytes is written.
    FlatUnlimited,
    /// A buffer one byte shorter than the output is good enough.
    FlatOneShort,
    /// A buffer as long as the output is too short.
    FlatMustBeLonger,
    /// A buffer shorter than the input is refused before anything else.
    FlatSeventeenFirst,
    /// A refusal writes a byte.
    FlatRefusedWrites,
    /// The length of the input is answered.
    FlatAnswersInput,
    /// The byte after the output is changed.
    FlatClears,
    /// The output stands at the end of the buffer.
    FlatAtEnd,
    /// The output is written in its normal form.
    FlatNormal,
    ;
    // What is refused.
    /// A file that is not valid is bounded.
    BoundsThirteenNever,
    /// 13 is tried after 14, 20 and 15.
    BoundsThirteenLast,
    /// 20 is tried before 14, on the ranges that are there.
    TwentyBeforeFourteen,
    /// 15 is tried before 20.
    FifteenBeforeTwenty,
    /// 15 is tried before 14 and 20.
    FifteenBeforeBoth,
    /// Ranges are asked for 2 bytes a variable.
    RangesAskTwo,
    /// Ranges that are too long are taken.
    RangesMoreTaken,
    /// Ranges that are too short are taken.
    RangesLessTaken,
    /// Ranges of any whole number of variables are taken.
    RangesAnyWhole,
    /// Up to three bytes left over are taken.
    RangesRounded,
    /// Ranges are read with the low byte first.
    RangesLittle,
    /// The high is read before the low.
    RangesHighFirst,
    /// All lows are read before all highs.
    RangesLowsFirst,
    /// The place of 14 is the ranges' length.
    BoundsFourteenHasPlace,
    /// The place of 15 is the buffer's length.
    BoundsFifteenHasPlace,
    /// The place of 20 is that of the variable's field.
    TwentyAtField,
    /// The place of 20 is that of the range.
    TwentyAtRange,
    /// The place of 20 is the variable's number.
    TwentyAtVariable,
    /// No range is judged.
    TwentyNever,
    /// Only ranges of founded variables are judged.
    TwentyFoundedOnly,
    /// Only ranges of standard variables are judged.
    TwentyStandardOnly,
    /// Ranges of variables of kind 2 are not judged.
    TwentyNotAbove,
    /// Only the first range is judged.
    TwentyFirstOnly,
    /// The first of several ranges is not judged.
    TwentyFirstOut,
    /// Only the last range is judged.
    TwentyLastOnly,
    /// The last of several ranges is not judged.
    TwentyLastOut,
    /// An empty range passes.
    TwentyEmptyPasses,
    /// Only empty ranges are refused.
    TwentyEmptyOnly,
    /// A range of one value is refused.
    TwentySingleRefused,
    /// Low and high are compared as numbers without a sign.
    TwentyUnsigned,
    /// A range may leave the declared one at its low.
    TwentyLowPasses,
    /// A range may leave the declared one at its high.
    TwentyHighPasses,
    /// A range may leave the declared one by one at its low.
    TwentyLowLate,
    /// A range may leave the declared one by one at its high.
    TwentyHighLate,
    /// A range may not begin at the declared low.
    TwentyLowEarly,
    /// A range may not end at the declared high.
    TwentyHighEarly,
    /// A founded variable's range without its starting end is refused.
    TwentyWithoutStart,
    /// Four bytes a variable are asked of the buffer.
    BoundsAskFour,
    /// Twelve bytes a variable are asked of the buffer.
    BoundsAskTwelve,
    /// Two bytes a founded variable are asked of the buffer.
    BoundsAskFounded,
    /// Nothing is asked of the buffer.
    BoundsAskNothing,
    /// A buffer one byte short is good enough for the bounds.
    BoundsOneShort,
    /// A buffer just long enough is too short for the bounds.
    BoundsMustBeLonger,
    /// An empty buffer is too short for the bounds of the empty file.
    BoundsNoneRefused,
    /// A refusal of bounds writes a byte.
    BoundsRefusedWrite,
    // Where lifts start and stop.
    /// Lifts start at the lent range's starting end.
    StartsAtLent,
    /// So do those of kind 1.
    StartsAtLentBelow,
    /// So do those of kind 2.
    StartsAtLentAbove,
    /// Lifts stop at the declared far end.
    StopsAtDeclared,
    /// So do those of kind 1.
    StopsAtDeclaredBelow,
    /// So do those of kind 2.
    StopsAtDeclaredAbove,
    /// Lifts stop where two bytes end.
    StopsNowhere,
    /// A rule that gives more than the far end lifts nothing.
    PastIsNothing,
    /// So does one for kind 2.
    PastIsNothingAbove,
    /// Nothing is written where a rule gives more than the far end.
    PastIsNone,
    /// Nothing is written where a bound stays before the lent range.
    BeforeIsNone,
    /// A bound is brought into the lent range by nothing.
    LiftsIntoRange,
    /// So is one of kind 2.
    LiftsIntoRangeAbove,
    /// A bound that has moved is brought into the lent range.
    MovedIntoRange,
    /// A lift goes as far as it may.
    LiftsAllTheWay,
    /// So does one of kind 2.
    LiftsAllTheWayAbove,
    /// Far ends are drawn in to the bounds again and again.
    DrawnInAgain,
    /// Rules are gone through once for the bounds.
    BoundsOneRound,
    /// Rules are gone through twice for the bounds.
    BoundsTwoRounds,
    /// Rules are gone through 40 times for the bounds and no more.
    BoundsFortyRounds,
    /// Constraints of one variable draw in its far end.
    ConstraintsDrawIn,
    /// Nothing is written where a constraint is not met by the bounds.
    ConstraintUnmetNone,
    /// Idle rules are left out.
    BoundsIdleOut,
    // Where positions are read.
    /// A kept variable is read at its lent far end.
    KeptAtLentFar,
    /// So is one of kind 2.
    KeptAtLentFarAbove,
    /// A kept variable is read at its lent starting end.
    KeptAtLentNear,
    /// A kept variable is read at its declared far end.
    KeptAtDeclaredFar,
    /// A kept variable is read at its declared starting end.
    KeptAtDeclaredStart,
    /// A kept variable is read no nearer than its lent range.
    KeptIntoRange,
    /// So is one of kind 2.
    KeptIntoRangeAbove,
    /// A kept variable that is single is read at its value.
    SingleNotKept,
    /// So is one of kind 2.
    SingleNotKeptAbove,
    /// A kept literal is read at the lent far end.
    LiteralsNotKept,
    /// The head in its own body is read at its far end.
    OwnHeadAtFar,
    /// Founded variables that are not kept are read at the bounds so far.
    FoundedAtBound,
    /// So are those of kind 2.
    FoundedAtBoundAbove,
    /// Founded variables that are not kept are read at their declared end.
    FoundedAtDeclared,
    /// So are those of kind 2.
    FoundedAtDeclaredAbove,
    /// Founded variables that are not kept are read at their far end.
    FoundedAtFar,
    /// Standard variables are read at their declared end.
    StandardAtDeclared,
    /// Standard variables are read at the end that demands least.
    StandardAtOther,
    /// Standard variables are read at their low.
    StandardAtLow,
    /// Standard variables are read at their high.
    StandardAtHigh,
    /// A rising variable that is not kept is read at its low.
    RisingAtLow,
    /// A falling variable that is not kept is read at its high.
    FallingAtHigh,
    /// Literals that are not kept are read at the end that demands least.
    LiteralsAtOther,
    /// Plain terms that are not kept are read at the end that demands least.
    PlainAtOther,
    /// In a rule for kind 2 the ends of plain terms do not swap.
    AboveEndsUnswapped,
    /// In a rule for kind 2 the ends of literals swap, too.
    AboveLiteralsEndsSwap,
    /// The ends of variables of kind 2 swap.
    EndsByKind,
    // Mixed variables.
    /// A mixed variable that is single lets the head reach its far end.
    MixedSingleFar,
    /// So does one in a rule for kind 2.
    MixedSingleFarAbove,
    /// A rule with a mixed variable that is single gives nothing.
    MixedSingleNothing,
    /// A founded mixed variable that is single is read at the bound so far.
    MixedSingleBound,
    /// A founded mixed variable that is single is read at its declared starting end.
    MixedSingleStart,
    /// A mixed variable with two values is read at the first.
    MixedTwoSingle,
    /// A mixed variable is read at its low.
    MixedAtLow,
    /// So it is in rules for kind 2.
    MixedAtLowAbove,
    /// A mixed variable is read at its high.
    MixedAtHigh,
    /// So it is in rules for kind 2.
    MixedAtHighAbove,
    /// A mixed variable is read where its rule demands most.
    MixedAtUtmost,
    /// So it is in rules for kind 2.
    MixedAtUtmostAbove,
    /// A founded mixed variable is read at the bound so far.
    MixedAtBound,
    /// A rule with a mixed variable that is not single gives nothing.
    MixedNothing,
    /// So does one for kind 2.
    MixedNothingAbove,
    /// A founded mixed variable that is not single gives nothing.
    MixedStandardOnly,
    /// A standard mixed variable that is not single gives nothing.
    MixedFoundedOnly,
    /// A mixed variable lifts only where its rule can give more than the start.
    MixedIfGives,
    /// A mixed variable of an idle rule gives nothing.
    MixedIdleOut,
    /// So does one of an idle rule for kind 2.
    MixedIdleOutAbove,
    /// A variable is mixed by its lent range.
    MixedByLent,
    /// A variable is mixed where 0 is in its lent range.
    MixedAroundZero,
    /// A variable is kept, and mixed, by its lent range.
    KeptByLent,
    /// A mixed variable lets the head reach its declared far end.
    MixedToDeclared,
    /// So does one in a rule for kind 2.
    MixedToDeclaredAbove,
    // What is written.
    /// A standard variable's high is written.
    StandardHigh,
    /// A standard variable's declared low is written.
    StandardDeclared,
    /// Standard variables have no place among the bounds.
    StandardLeftOut,
    /// The bytes of standard variables are not written.
    StandardUnwritten,
    /// The bytes of variables that are not lifted are not written.
    UnmovedUnwritten,
    /// The steps from the starting end are written.
    BoundsAsSteps,
    /// Bounds are written with the low byte first.
    BoundsLittle,
    /// The byte after the bounds is changed.
    BoundsClear,
    /// The bounds stand at the end of the buffer.
    BoundsAtEnd,
    // What is printed.
    /// 61,000 bytes are the most that is read.
    BoundsPrintLess,
    /// 61,025 bytes are the most that is read.
    BoundsPrintOneLess,
    /// 61,027 bytes are the most that is read.
    BoundsPrintOneMore,
    /// Bounds of kind 2 print `most`.
    BoundsPrintMost,
    /// Standard variables are printed, too.
    BoundsPrintStandard,
    /// Variables that are not lifted are not printed.
    BoundsPrintMoved,
}
