use std::fs;

/// What a table has rows of.
pub struct Table {
    /// What is told of a row before its numbers: a heading for each column.
    pub columns: &'static [&'static str],
    /// What a time is divided by: a word, or a record.
    pub unit: &'static str,
    /// What each row has in these columns.
    pub rows: Vec<Vec<String>>,
    /// The geometric means that the table of times ends with.
    pub means: Vec<Group>,
    /// The sums that the table of counts ends with.
    pub sums: Vec<Group>,
}

/// Rows that have a line together.
pub struct Group {
    pub cells: Vec<String>,
    pub rows: Vec<usize>,
}

/// What a build found on a row: see `rounds::line`.
type Times = [f64; 4];

impl Table {
    /// The table of several builds, a file for each.
    pub fn times(&self, files: &[&str]) -> Result<String, String> {
        let builds = files.iter().map(|file| self.numbers(file)).collect::<Result<Vec<Vec<Times>>, String>>()?;
        let of_row = |row: usize| -> Vec<Times> { builds.iter().map(|build| build[row]).collect() };
        let unit = self.unit;
        let (old, new) = (format!("old, ns a {unit}"), format!("new, ns a {unit}"));
        let mut text = self.head(&[&old, &new, "new to old", "in the builds", "in the fastest rounds"]);
        for (number, row) in self.rows.iter().enumerate() {
            text += &time_line(row, &of_row(number));
        }
        for Group { cells, rows } in &self.means {
            let wholes: Vec<Times> = builds.iter().map(|build| means(rows.iter().map(|row| build[*row]))).collect();
            text += &time_line(cells, &wholes);
        }

        let ratio = |row: &usize| means(of_row(*row))[2];
        let worst =
            (0..self.rows.len()).max_by(|one, other| ratio(one).total_cmp(&ratio(other))).ok_or("there are no rows")?;
        text += &format!("\nThe worst row: {}, {:.3}. {} builds.\n", self.told(worst), ratio(&worst), builds.len());
        Ok(text)
    }

    /// The table of what was counted.
    pub fn counts(&self, file: &str) -> Result<String, String> {
        let counts: Vec<[f64; 2]> = self.numbers(file)?;
        let mut text = self.head(&["old", "new", "new to old"]);
        for (row, count) in self.rows.iter().zip(&counts) {
            text += &count_line(row, *count);
        }
        for Group { cells, rows } in &self.sums {
            let sum = rows.iter().fold([0.0; 2], |[old, new], row| [old + counts[*row][0], new + counts[*row][1]]);
            text += &count_line(cells, sum);
        }
        Ok(text)
    }

    /// The headings; numbers stand at the right.
    fn head(&self, numbers: &[&str]) -> String {
        let names = [self.columns, numbers].concat().join(" | ");
        format!("| {names} |\n|{}{}\n", "---|".repeat(self.columns.len()), "--:|".repeat(numbers.len()))
    }

    /// A row in words, with the headings but for the first.
    fn told(&self, row: usize) -> String {
        let cells = self.columns.iter().zip(&self.rows[row]).enumerate();
        let told = cells.map(|(column, (name, cell))| if column == 0 { cell.clone() } else { format!("{name} {cell}") });
        told.collect::<Vec<_>>().join(", ")
    }

    /// The numbers of a file, a line for each row.
    fn numbers<const N: usize>(&self, file: &str) -> Result<Vec<[f64; N]>, String> {
        let text = fs::read_to_string(file).map_err(|error| format!("{file}: {error}"))?;
        let lines: Option<Vec<[f64; N]>> = text.lines().map(of_line).collect();
        lines.filter(|lines| lines.len() == self.rows.len()).ok_or(format!("{file}: not {N} numbers for each row"))
    }
}

fn of_line<const N: usize>(line: &str) -> Option<[f64; N]> {
    let numbers: Option<Vec<f64>> = line.split(' ').map(|word| word.parse().ok()).collect();
    numbers?.try_into().ok()
}

/// The mean over the builds, and between which numbers their ratios lie.
fn time_line(cells: &[String], builds: &[Times]) -> String {
    let [old, new, ratio, fastest] = means(builds.iter().copied());
    let least = builds.iter().map(|build| build[2]).fold(f64::INFINITY, f64::min);
    let most = builds.iter().map(|build| build[2]).fold(0.0, f64::max);
    let cells = cells.join(" | ");
    format!("| {cells} | {old:.1} | {new:.1} | {ratio:.3} | {least:.3} to {most:.3} | {fastest:.3} |\n")
}

/// Geometric means, by which a ratio and its inverse weigh alike.
fn means(all: impl IntoIterator<Item = Times>) -> Times {
    let all: Vec<Times> = all.into_iter().collect();
    [0, 1, 2, 3].map(|column| (all.iter().map(|times| times[column].ln()).sum::<f64>() / all.len() as f64).exp())
}

fn count_line(cells: &[String], [old, new]: [f64; 2]) -> String {
    let more = 100.0 * (new / old - 1.0);
    format!("| {} | {} | {} | {more:+.2} % |\n", cells.join(" | "), grouped(old as u64), grouped(new as u64))
}

/// With a comma before each three digits.
fn grouped(count: u64) -> String {
    match count {
        0..1000 => count.to_string(),
        _ => format!("{},{:03}", grouped(count / 1000), count % 1000),
    }
}
