//! Sheets written out by hand.

/// The lines, each with the blanks and the line feed that end it.
pub fn sheet(lines: [&str; 16]) -> String {
    lines.map(|line| format!("{line:<80}\n")).concat()
}

/// The sheet of document 01's settlement: L&P, K 2,000,000, Ss 600,000, Sp 400,000, in November on a fresh book; Rs 1,250,000, Rp 800,000.
pub fn document_01() -> String {
    sheet([
        "1   Total energy cost (F, P, and E)       20000.00",
        "2   Base energy cost (B)                  17990.00",
        "3   First Interim Total                    2010.00",
        "4   Base energy (S_A) by voltage le                        600000         400000",
        "4.1 Loss factors (L)                                     108.443%       106.231%",
        "4.2 S_A adjusted for losses                1075582         650658         424924",
        "4.3 Loss factor weights                                   60.494%        39.506%",
        "5   Customer Responsibility                    95%",
        "6   Second Interim Total by voltage        1909.50        1155.13         754.37",
        "7   Adjustment for Under / Over rec                          0.00           0.00",
        "8   Interest (I)                                             0.00           0.00",
        "9   Fuel Adjustment Clause                                1155.13         754.37",
        "10  Estimated recovery period sales                       1250000         800000",
        "11  Current period cost adjustment                         0.0009         0.0009",
        "12  Previous period cost adjustment                        0.0000         0.0000",
        "13  Current annual cost adjustment                         0.0009         0.0009",
    ])
}
