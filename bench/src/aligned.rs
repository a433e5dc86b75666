//! Plain text tables: the first column to the left, all others to the right.

/// Prints rows of cells. The first row is the head.
pub fn print(rows: &[Vec<String>]) {
    let columns = rows.iter().map(Vec::len).max().unwrap_or(0);
    let width = |column: usize| {
        let cells = rows.iter().filter_map(|row| row.get(column));
        cells.map(|cell| cell.chars().count()).max().unwrap_or(0)
    };
    let widths: Vec<usize> = (0..columns).map(width).collect();
    for row in rows {
        let mut line = String::from("  ");
        for (column, cell) in row.iter().enumerate() {
            match column {
                0 => line += &format!("{:<1$}", cell, widths[0]),
                _ => line += &format!("  {:>1$}", cell, widths[column]),
            }
        }
        println!("{}", line.trim_end());
    }
}

/// A row of a title and some cells behind it.
pub fn row(title: &str, texts: impl IntoIterator<Item = impl ToString>) -> Vec<String> {
    let title = [title.to_string()].into_iter();
    title
        .chain(texts.into_iter().map(|text| text.to_string()))
        .collect()
}
