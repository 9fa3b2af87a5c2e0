//! A table of what a run has met. It is printed, and each of its counts is owed.

pub struct Table<'a> {
    title: &'static str,
    columns: Vec<String>,
    rows: Vec<(String, &'a [u64])>,
}

impl<'a> Table<'a> {
    pub fn new(
        title: &'static str,
        columns: impl IntoIterator<Item = impl ToString>,
        rows: impl IntoIterator<Item = (impl ToString, &'a [u64])>,
    ) -> Table<'a> {
        let columns = columns.into_iter().map(|name| name.to_string()).collect();
        let rows = rows.into_iter().map(|(name, counts)| (name.to_string(), counts)).collect();
        Table { title, columns, rows }
    }

    pub fn print(&self) {
        println!("\n{}", self.title);
        let first = self.rows.iter().map(|(name, _)| name.len()).max().unwrap_or(0);
        let width = 2 + self.columns.iter().map(String::len).fold(7, usize::max);
        let header: String = self.columns.iter().map(|name| format!("{name:>width$}")).collect();
        println!("  {:<first$}{header}", "");
        for (name, counts) in &self.rows {
            let row: String = counts.iter().map(|count| format!("{count:>width$}")).collect();
            println!("  {name:<first$}{row}");
        }
    }

    /// What did not occur.
    pub fn missing(&self) -> Vec<String> {
        let mut missing = vec![];
        for (name, counts) in &self.rows {
            let absent = self.columns.iter().zip(*counts).filter(|(_, count)| **count == 0);
            missing.extend(absent.map(|(column, _)| format!("{}: {name}, {column}", self.title)));
        }
        missing
    }
}
