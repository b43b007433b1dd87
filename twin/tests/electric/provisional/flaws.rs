//! What can be wrong in a month end with the provisional share.

flaws! {
    // Whether there is a share
    OpenCostBearsNone
    BorneInSettledMonth
    BorneWithoutSales
    BorneBeforeSettlingMonthAlone

    // How large it is
    VarianceIsBorneWhole
    BaseOfOtherDivision
    LossesOfOtherDivision
    RemainderLeftOut
    RemainderTakenOff
    ShareTowardsZero
    HalfOfShareTowardsZero

    // How it is parted
    SharesOfOtherLevel
    WholeShareAtSecondary
    WholeShareAtPrimary
    WholeShareAtBoth
    HalfAtEither
    PartedByKwh
    SharesRoundedApart

    // What it bears
    RoundedByItself
    InterestTowardsZero
    HalfOfInterestTowardsZero
    InPlaceOfPending
    AccruedInterestBears

    // What is left of it
    CostIsConsumed
    PeriodIsConsumed
    RemainderMovesOn
    RemainderIsDropped
    ShareJoinsCarried
    ShareJoinsInterest
    ShareIsPending
    SettledStays
}
