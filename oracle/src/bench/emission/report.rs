//! How the rows are printed.

/// What a case took at the least: nanoseconds a call.
pub struct Row {
    pub name: String,
    pub records: usize,
    pub port: f64,
    pub rust: f64,
    pub copy: f64,
    /// What an order's time grows by for ten variables more in its context.
    pub context: Option<f64>,
}

/// A line for each row, or a row of a Markdown table.
#[derive(Clone, Copy)]
pub enum Form {
    Lines,
    Table,
}

impl Form {
    pub fn header(self) -> &'static str {
        match self {
            Form::Lines => {
                "nanoseconds a call by the port, the Rust, a copy; Rust to port, port to copy; \
                 for orders, ten variables of context"
            }
            Form::Table => {
                "| | records | port | Rust | copy | Rust to port | port to copy \
                 | for ten variables of context |\n|---|---|---|---|---|---|---|---|"
            }
        }
    }

    pub fn row(self, row: &Row) -> String {
        match self {
            Form::Lines => row.line(),
            Form::Table => row.of_table(),
        }
    }
}

impl Row {
    /// How many times the port's time the Rust's is, if the Rust has something to do.
    fn rust_to_port(&self) -> Option<f64> {
        (self.records > 0).then(|| self.rust / self.port)
    }

    fn line(&self) -> String {
        let Row {
            name,
            records,
            port,
            rust,
            copy,
            ..
        } = self;
        let ratio = self.rust_to_port();
        let ratio = ratio.map_or("-".to_string(), |ratio| format!("{ratio:.1}"));
        let to_copy = port / copy;
        let context = self.context.map(|context| format!("; {context:.1}"));
        let context = context.unwrap_or_default();
        format!(
            "{name}, {records} records: {port:.1}, {rust:.1}, {copy:.1}; {ratio}, {to_copy:.1}{context}"
        )
    }

    fn of_table(&self) -> String {
        let some = |value: Option<f64>| value.map(tenths).unwrap_or_default();
        let cells = [
            self.name.clone(),
            grouped(self.records as u64),
            tenths(self.port),
            tenths(self.rust),
            tenths(self.copy),
            some(self.rust_to_port()),
            tenths(self.port / self.copy),
            some(self.context),
        ];
        format!("| {} |", cells.join(" | "))
    }
}

/// A number with one decimal, from 1,000 on with none.
fn tenths(value: f64) -> String {
    if value < 999.95 {
        format!("{value:.1}")
    } else {
        grouped(value.round() as u64)
    }
}

/// A number's digits in groups of three.
fn grouped(number: u64) -> String {
    match number {
        0..1_000 => number.to_string(),
        _ => format!("{},{:03}", grouped(number / 1_000), number % 1_000),
    }
}

#[cfg(test)]
mod tests {
    use super::*;

    #[test]
    fn numbers_in_a_table() {
        let written = [0.04, 999.94, 999.96, 4_273.6, 1_002_003.0].map(tenths);
        assert_eq!(written, ["0.0", "999.9", "1,000", "4,274", "1,002,003"]);
    }

    #[test]
    fn a_row_without_records_has_no_ratio() {
        let row = Row {
            name: "drop".to_string(),
            records: 0,
            port: 12.0,
            rust: 1.0,
            copy: 4.0,
            context: Some(2.5),
        };
        assert_eq!(row.line(), "drop, 0 records: 12.0, 1.0, 4.0; -, 3.0; 2.5");
        let cells = "| drop | 0 | 12.0 | 1.0 | 4.0 |  | 3.0 | 2.5 |";
        assert_eq!(row.of_table(), cells);
    }
}
