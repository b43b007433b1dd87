//! What can be wrong in a sheet.

flaws! {
    // Rows and their parts
    LabelCutAtThirty
    LabelCutAtThirtyTwo
    NumberSetRight
    CellsSetLeft
    HeadingIsPrinted
    LastRowIsMissing
    NoLastLineFeed

    // Cost
    CostLessBase
    BaseOfOtherDivision
    BaseTowardsZero
    ThirdFromUnroundedBase
    DollarSign

    // Sales
    SalesHaveTotal
    LossFactorsOfOtherDivision
    LossFactorsOverThousand
    AdjustedWithoutTotal
    AdjustedTotalRoundedOnce
    AdjustedTowardsZero
    WeightOfOtherLevel
    WeightsRoundedApart
    WeightWithoutLosses
    PercentWithLeadingZeros
    PercentWithoutZeros
    PercentOfTwoDecimals
    ResponsibilityWithDecimals
    ResponsibilityOfLevels

    // Shares
    RemainderLeftOut
    SharesRoundedApart
    SharesOfOtherLevel
    SharesWithoutTotal
    CarriedAfterSettling
    InterestLeftOutOfClause
    ClauseIsShare

    // Factors
    SalesForEstimates
    PreviousOfEnteringRun
    PreviousOfFirstRun
    PreviousIsPending
    AnnualIsCurrent
    AnnualOfBothRuns

    // Text of amounts
    SignFromDollars
    MinusBeforeZero
    PointsLikeCents

    // Pages
    PageBeforeSettlement
    ExactPageIsRefused
    ShortPageIsTwelve
    ShortPageIsFilled
    RefusedPageIsBlanked
    RestOfPageIsCleared
    ByteAfterSheetIsSet
    BytePastPageIsSet
    LengthOfPageIsAnswered
}
