//! The table: what was measured, and the limit where there is one.
pub struct Table {
    missed: usize,
}

impl Table {
    pub fn new() -> Table {
        println!("| Path | measured | limit | |\n|---|---|---|---|");
        Table { missed: 0 }
    }

    /// A ratio to the Rust, or a number of microseconds; `limit`: at most so much.
    pub fn row(&mut self, path: &str, measured: f64, unit: &str, limit: Option<f64>) {
        let told = match limit {
            Some(most) if measured <= most => "met",
            Some(_) => {
                self.missed += 1;
                "NOT MET"
            }
            None => "",
        };
        let most = limit.map_or(String::new(), |x| format!("{x}{unit}"));
        println!("| {path} | {measured:.2}{unit} | {most} | {told} |");
    }

    pub fn all_met(&self) -> bool {
        println!("\nlimits not met: {}", self.missed);
        self.missed == 0
    }
}
