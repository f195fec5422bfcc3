//! Draws how the time of a status grows with records and accounts, from the bench's output:
//! `cargo bench --offline --bench speed | cargo run --offline --bin plot > ../docs/growth.svg`.
use std::fmt::Write;
use std::io::Read;

/// The row of a status: records in use, accounts, and the nanoseconds of the proved call and of the twin's.
#[derive(Clone, Copy, Debug, PartialEq)]
struct Row {
    records: f64,
    accounts: u32,
    proved: f64,
    twin: f64,
}

/// Reads `| 256 records, 16 accounts | 11467 | 7871 | ..`; none for any other line.
fn read_row(line: &str) -> Option<Row> {
    let mut cells = line.strip_prefix("| ")?.split(" | ");
    let (records, accounts) = cells.next()?.split_once(" records, ")?;
    Some(Row {
        records: records.parse().ok()?,
        accounts: accounts.strip_suffix(" accounts")?.parse().ok()?,
        proved: cells.next()?.parse().ok()?,
        twin: cells.next()?.parse().ok()?,
    })
}

/// The ends of a scale that goes by factors, and where they are drawn.
struct Scale {
    least: f64,
    most: f64,
    from: f64,
    to: f64,
}

impl Scale {
    fn place(&self, value: f64) -> f64 {
        self.from + (value / self.least).ln() / (self.most / self.least).ln() * (self.to - self.from)
    }
}

/// The colour of a number of accounts.
fn colour(accounts: u32) -> &'static str {
    match accounts {
        1 => "#1b6ca8",
        16 => "#c1601a",
        _ => "#3d7d3a",
    }
}

const HEAD: &str = r##"<svg xmlns="http://www.w3.org/2000/svg" viewBox="0 0 680 400" font-family="sans-serif" font-size="12" fill="#333">
<rect width="680" height="400" fill="#fff"/>
<text x="70" y="24" font-size="14">A status delivered: time by records in use and accounts</text>
"##;

/// The lines of the grid with their marks.
fn draw_grid(out: &mut String, across: &Scale, up: &Scale) -> std::fmt::Result {
    for records in [16.0, 64.0, 256.0, 1024.0, 4096.0] {
        let x = across.place(records);
        writeln!(out, r##"<path d="M{x:.1} {} V{}" stroke="#ddd"/>"##, up.from, up.to)?;
        writeln!(out, r##"<text x="{x:.1}" y="{}" text-anchor="middle">{records}</text>"##, up.from + 18.0)?;
    }
    for micros in [0.5, 1.0, 2.0, 5.0, 10.0, 20.0, 50.0, 100.0, 200.0] {
        let y = up.place(1000.0 * micros);
        writeln!(out, r##"<path d="M{} {y:.1} H{}" stroke="#ddd"/>"##, across.from, across.to)?;
        writeln!(out, r##"<text x="{}" y="{:.1}" text-anchor="end">{micros}</text>"##, across.from - 8.0, y + 4.0)?;
    }
    writeln!(out, r##"<text x="330" y="388" text-anchor="middle">records in use</text>"##)?;
    writeln!(out, r##"<text transform="translate(20 200) rotate(-90)" text-anchor="middle">µs a call</text>"##)
}

/// One side's line for one number of accounts.
fn draw_line(out: &mut String, points: &[(f64, f64)], accounts: u32, dashed: bool) -> std::fmt::Result {
    let path: Vec<String> = points.iter().map(|(x, y)| format!("{x:.1} {y:.1}")).collect();
    let dashes = if dashed { r##" stroke-dasharray="5 4""## } else { "" };
    let colour = colour(accounts);
    writeln!(out, r##"<path d="M{}" fill="none" stroke="{colour}" stroke-width="2"{dashes}/>"##, path.join(" L"))
}

fn draw(rows: &[Row]) -> Result<String, std::fmt::Error> {
    let across = Scale { least: 16.0, most: 4096.0, from: 70.0, to: 490.0 };
    let up = Scale { least: 400.0, most: 300_000.0, from: 350.0, to: 40.0 };
    let mut out = HEAD.to_owned();
    draw_grid(&mut out, &across, &up)?;
    for (at, accounts) in [1, 16, 256].into_iter().enumerate() {
        let own = || rows.iter().filter(move |row| row.accounts == accounts);
        let side = |time: fn(&Row) -> f64| -> Vec<(f64, f64)> {
            own().map(|row| (across.place(row.records), up.place(time(row)))).collect()
        };
        for (nth, (name, points)) in
            [("proved", side(|row| row.proved)), ("twin", side(|row| row.twin))].iter().enumerate()
        {
            draw_line(&mut out, points, accounts, nth == 1)?;
            let y = 60.0 + 22.0 * (2 * at + nth) as f64;
            draw_line(&mut out, &[(505.0, y), (530.0, y)], accounts, nth == 1)?;
            let ending = if accounts == 1 { "" } else { "s" };
            writeln!(out, r##"<text x="536" y="{}">{name}, {accounts} account{ending}</text>"##, y + 4.0)?;
        }
    }
    out.push_str("</svg>\n");
    Ok(out)
}

fn main() -> Result<(), Box<dyn std::error::Error>> {
    let mut text = String::new();
    std::io::stdin().read_to_string(&mut text)?;
    let rows: Vec<Row> = text.lines().filter_map(read_row).collect();
    if rows.is_empty() {
        return Err("no row of a status: is this the output of the bench?".into());
    }
    print!("{}", draw(&rows)?);
    Ok(())
}

#[cfg(test)]
mod tests {
    use super::*;

    #[test]
    fn rows_are_read_and_other_lines_left_out() {
        let row = Row { records: 256.0, accounts: 16, proved: 11467.0, twin: 7871.0 };
        assert_eq!(read_row("| 256 records, 16 accounts | 11467 | 7871 | 1.5 | 80 | 143.3 |"), Some(row));
        assert_eq!(read_row("| 16 lines, 256 records | 34030 | 14362 | 2.4 |"), None);
        assert_eq!(read_row("|---|---|---|"), None);
    }

    #[test]
    fn each_side_has_a_line_for_each_number_of_accounts() {
        let row = |records, accounts| Row { records, accounts, proved: 3000.0, twin: 600.0 };
        let rows: Vec<Row> = [1, 16, 256].into_iter().flat_map(|a| [row(16.0, a), row(4095.0, a)]).collect();
        let drawn = draw(&rows).expect("a plot");
        assert_eq!(drawn.matches("stroke-width=\"2\"").count(), 12, "six lines and their six keys");
        assert_eq!(drawn.matches("stroke-dasharray").count(), 6);
    }
}
