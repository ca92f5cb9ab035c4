//! The rules of 01 that are easy to read wrongly, each with its right reading.
//! The harness only uses `Document01`; its tests put in a wrong reading at a time
//! and want the comparison to see it.

pub trait Reading {
    /// 01, "Tempting and wrong" 3: a guarded arm covers no value.
    const GUARDED_ARM_COVERS: bool = false;
    /// 01, "Tempting and wrong" 4: a while ends with the set it was entered with.
    const WHILE_ADDS_ITS_BODY: bool = false;
    /// 01, "Numbers given instead": 11 anywhere comes before any 12.
    const SPEECH_BEFORE_INITIALISATION: bool = false;
    /// 01, "Numbers given instead": the lowest place within a number.
    const HIGHEST_STATE: bool = false;
    /// 01, "Initialisation": a state no jump leads to has all variables.
    const UNREACHED_HAS_NONE: bool = false;
    /// 01, "Initialisation": an unreached state isn't judged.
    const UNREACHED_IS_JUDGED: bool = false;
    /// READINGS, "Speech": after a for entered spoken one is spoken.
    const FOR_ENDS_QUIET: bool = false;
    /// Figure 7: code after a jump is entered with all variables.
    const JUMP_KEEPS_ITS_SET: bool = false;
    /// 01, "The image": 8 rows of a vector are the most.
    const LONGER_VECTORS: bool = false;
    /// READINGS, "Typing and binding": a reset in a for's body counts too.
    const FOR_MAY_RESET: bool = false;
    /// 01, "Binding": offers run left to right, `!X ?X` is not bound.
    const OFFERS_IN_ANY_ORDER: bool = false;
    /// READINGS, "Speech": τ is a communication.
    const TAU_IS_QUIET: bool = false;

    /// 01, "Tempting and wrong" 1: a failed match leaves the store.
    const FAILED_MATCH_IS_KEPT: bool = false;
    /// 01, "Tempting and wrong" 2: a vector is assigned at once.
    const ASSIGNS_ITEM_BY_ITEM: bool = false;
    /// 01, "Values": and, or evaluate both operands.
    const OPERANDS_AS_NEEDED: bool = false;
    /// 01, "Values": the quotient is rounded toward zero.
    const QUOTIENT_ROUNDS_DOWN: bool = false;
    /// 01, "Values": by 0 the remainder is the dividend.
    const REMAINDER_BY_0_IS_0: bool = false;
    /// 01, "The step": one unit for each further test of a loop.
    const LOOP_CHARGES_ONCE: bool = false;
    /// READINGS, "Initialisation": a for is its expansion, whose last test fails.
    const FOR_LEAVES_ITS_LAST_VALUE: bool = false;
    /// 01, "The step": 27 comes before any offer is run.
    const OFFERS_BEFORE_27: bool = false;
    /// READINGS, "The step": a receipt that doesn't match is 21.
    const UNMATCHED_IS_26: bool = false;
    /// 01, "The step": a pattern's condition that reads an undefined variable is 22.
    const UNDEFINED_GUARD_FAILS: bool = false;
    /// READINGS, "The step": a word is read even where only one value is possible.
    const ONE_BRANCH_WANTS_NO_WORD: bool = false;
    /// READINGS, "The step": the subject comes first, 22 even without arms.
    const NO_ARMS_NO_SUBJECT: bool = false;
    /// 01, "Numbers given instead": step gives 17 before 13.
    const STORE_BEFORE_STATE: bool = false;
    /// 01, "Three calls": zeros to the tenth word of the label.
    const OLD_LABEL_SHOWS: bool = false;
}

/// Document 01 as READINGS settles it.
pub struct Document01;

impl Reading for Document01 {}
