//! What can be wrong in a journal program.

flaws! {
    // Openings
    EmptyIsSeven
    EmptyPrintsNothing
    BadOpeningIsOne
    DivisionsAreOne
    LongestIsRefused
    LongerIsTaken
    LongerIsReadInPart
    QuartersNewestFirst
    QuartersLowestByteFirst
    QuarterOfZeroIsRefused
    QuarterPastLimitIsTaken
    CutOpeningIsFour
    CutOpeningIsElectric

    // Records
    NumbersFromZero
    NumbersOfAcceptedOnly
    NumbersInOneByte
    NumbersInFourDigits
    UnreadableHasItsKind
    UnreadableHasNoLine
    UnreadableHasLastNumber
    UnknownKindIsPosted
    UnknownKindIsSkipped
    StrayBitIsPosted
    ZeroFieldIsTaken
    CutRecordIsOne
    LastByteIsLeftOut
    LineAtEnd
    RefusalEndsRun
    RefusalMovesBook

    // Answers
    LineWithoutMinus
    SignFromDollars
    MinusBeforeZero
    CentsWithoutZeros
    PointsLikeCents
    FactorsPrimaryFirst
    FactorOfOneLevel
    SteamFactorTwice
    InterestAccrued
    InterestPrimaryFirst
    SteamInterest
    AdjustPrintsCents
    ReconcileIsFiled

    // Layout
    NoLastLineFeed
    CarriageReturns
    BlankAtLineEnd
    KindInHexadecimal

    // Buffers
    LengthOfLinesWithoutFeed
    LengthRefusesThirteen
    ExactBufferIsRefused
    ShortBufferIsTwelve
    ShortBufferIsFilled
    RestOfBufferIsCleared
    AnswerIsBufferLength
}
