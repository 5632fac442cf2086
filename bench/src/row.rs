// What was measured: a row for each job, a column for each shape and size of network.

/// One job on networks of one shape and size: for each network the time of what it is measured against and its own, in
/// nanoseconds.
pub struct Row {
    pub name: String,
    times: Vec<(f64, f64)>,
}

impl Row {
    pub fn of(name: impl Into<String>, times: impl Iterator<Item = (f64, f64)>) -> Row {
        Row { name: name.into(), times: times.collect() }
    }

    /// In rising order, so the first is the least and the last the most.
    pub fn ratios(&self) -> Vec<f64> {
        let mut ratios: Vec<f64> = self.times.iter().map(|(against, own)| own / against).collect();
        ratios.sort_by(f64::total_cmp);
        ratios
    }

    /// The median over the networks.
    pub fn ratio(&self) -> f64 {
        let ratios = self.ratios();
        let half = ratios.len() / 2;
        (ratios[half] + ratios[(ratios.len() - 1) / 2]) / 2.0
    }

    pub fn micros(&self) -> f64 {
        self.times.iter().map(|time| time.1).sum::<f64>() / self.times.len() as f64 / 1_000.0
    }
}

/// Networks of one shape and size.
pub struct Column {
    pub heading: &'static str,
    pub rows: Vec<Row>,
}

impl Column {
    pub fn row(&self, name: &str) -> Option<&Row> {
        self.rows.iter().find(|row| row.name == name)
    }
}
