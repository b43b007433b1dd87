//! How the types of the proved crates are called in C.

/// The C type of a Rattle type that a file names: either book has a period of its own.
pub fn c_type(rattle: &str, path: &str) -> &'static str {
    match rattle {
        "bool" => "bool",
        "u8" => "uint8_t",
        "i32" => "int32_t",
        "i64" | "Kwh" | "Mmbtu" | "Remainder" => "int64_t",
        "usize" => "size_t",
        "Cents" => "neapscroll_cents",
        "Points" => "neapscroll_points",
        "Posting" => "neapscroll_posting",
        "Run" => "neapscroll_run",
        "Level" => "neapscroll_level",
        "Sales" => "neapscroll_sales",
        "Period" if path.contains("electric") => "neapscroll_electric_period",
        "Period" => "neapscroll_steam_period",
        "Reconciliation" => "neapscroll_reconciliation",
        "ElectricBook" => "neapscroll_electric_book",
        "SteamBook" => "neapscroll_steam_book",
        "LevelCents" => "neapscroll_level_cents",
        "LevelPoints" => "neapscroll_level_points",
        "ElectricReply" => "neapscroll_electric_reply",
        "SteamReply" => "neapscroll_steam_reply",
        "Read" => "neapscroll_read",
        "Written" => "neapscroll_written",
        other => panic!("no C type is known for `{other}`"),
    }
}
