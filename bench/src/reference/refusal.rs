/// Why a call is refused, with the scope document's numbers.
#[derive(Clone, Copy, Debug, PartialEq, Eq)]
#[repr(u8)]
pub enum Refusal {
    ShortFile = 1,
    TooManyNodes = 2,
    LengthDiffers = 3,
    NodeMissing = 4,
    TooDeep = 5,
    KindNotAllowed = 6,
    ParameterNotAllowed = 7,
    NodesLeftOver = 8,
    ShortValues = 9,
    /// The run's marks, or a slice that is lent for results.
    ShortMarks = 10,
    NoSuchTransition = 11,
    NoSuchVariable = 12,
    /// Of the program only.
    NoCommand = 13,
    InconsistentRun = 20,
    HistoryFull = 21,
    NothingToUndo = 22,
    GuardFalse = 23,
    GuardZeroDivisor = 24,
    ActionZeroDivisor = 25,
    ActionOutside = 26,
    ActionConflict = 27,
    AssertionZeroDivisor = 28,
    AssertionOutside = 29,
    AssertionConflict = 30,
    ReplayRefused = 31,
    NotInGrammar = 32,
    TypesDoNotFit = 33,
    /// A text over 200 bytes, or nodes deeper than 32.
    TooLongOrDeep = 34,
    NoMembers = 35,
    /// A limit of sizes, nodes or depth, or the slice that is lent for it.
    NewModelTooLarge = 36,
    /// S + F above 4,000.
    TooManyVariables = 37,
    GuardTooLarge = 38,
    ActionTooLarge = 39,
    AssertionTooLarge = 40,
    /// W is zero or above 1,000, S + F is zero, or the slice is no whole number of rows.
    NoWindows = 41,
}

impl Refusal {
    pub fn number(self) -> u8 {
        self as u8
    }
}
