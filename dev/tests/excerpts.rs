//! README.md shows a factor sheet as the file of the example has it, but for the blanks at the ends of its rows.

use neapscroll_dev::text;

const SHEETS: &str = "examples/electric-year.sheets";

#[test]
fn the_readme_shows_the_first_sheet_of_the_year() {
    let (readme, sheets) = (text("README.md"), text(SHEETS));
    let first = sheets.lines().take_while(|row| !row.is_empty());
    let rows: Vec<&str> = first.map(str::trim_end).collect();
    assert_eq!(rows.len(), 16, "rows of the first sheet in {SHEETS}");
    let start = readme.find(&format!("    {}\n", rows[0]));
    let start = start.expect("the README shows a sheet");
    let shown = readme[start..].lines();
    let shown: Vec<&str> = shown.map_while(|line| line.strip_prefix("    ")).collect();
    assert_eq!(shown, rows);
}
