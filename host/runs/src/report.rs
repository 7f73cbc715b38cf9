//! What a run came to: its row in the table of all runs, and the differences with the first of them.

/// What a report begins with that one process writes for another.
const WRITTEN: &str = "REPORT";

/// What a run came to.
#[derive(Debug, Clone, PartialEq, Eq)]
pub struct Report {
    /// What it met, in a few words.
    pub met: String,
    pub differences: u64,
    /// Whether it met all that it is to meet.
    pub complete: bool,
}

impl Report {
    /// Of a run that ended without a difference, or else it would have ended with an error.
    pub fn measured(met: String) -> Self {
        Report { met, differences: 0, complete: true }
    }

    /// Whether all was as it should be.
    pub fn right(&self) -> bool {
        self.differences == 0 && self.complete
    }

    /// In one line.
    pub fn written(&self) -> String {
        format!("{WRITTEN} {} {} {}", self.differences, self.complete, self.met)
    }

    /// From that line; none where it is another.
    pub fn read(line: &str) -> Option<Self> {
        let mut words = line.strip_prefix(WRITTEN)?.strip_prefix(' ')?.splitn(3, ' ');
        let (differences, complete) = (words.next()?.parse().ok()?, words.next()?.parse().ok()?);
        Some(Report { met: words.next()?.to_string(), differences, complete })
    }
}

/// How many differences there were, and what is told of the first.
#[derive(Default)]
pub struct Differences {
    pub count: u64,
    first: Option<String>,
}

impl Differences {
    /// One more; the words for it are only asked for where it is the first.
    pub fn add(&mut self, what: impl FnOnce() -> String) {
        self.count += 1;
        self.first.get_or_insert_with(what);
    }

    /// Those of a later part.
    pub fn merge(&mut self, later: Differences) {
        self.count += later.count;
        self.first = self.first.take().or(later.first);
    }

    /// Prints the first.
    pub fn print(&self) {
        if let Some(first) = &self.first {
            println!("FIRST DIFFERENCE: {first}");
        }
    }
}

#[cfg(test)]
mod tests {
    use super::*;

    #[test]
    fn written_and_read() {
        for (met, differences, complete) in [("", 0, true), ("accepted 7; 21: 3, and more", 12, false)] {
            let report = Report { met: met.to_string(), differences, complete };
            assert_eq!(Report::read(&report.written()), Some(report));
        }
        let others = ["", "REPORT", "REPORTS 1 true x", "REPORT x true x", "REPORT 1 so x", "REPORT 1 true", "12 differences"];
        assert!(others.iter().all(|line| Report::read(line).is_none()));
    }

    #[test]
    fn the_first_is_that_of_the_first_part() {
        let of = |words: &[&str]| {
            let mut differences = Differences::default();
            words.iter().for_each(|word| differences.add(|| word.to_string()));
            differences
        };
        let mut all = of(&[]);
        [of(&["a", "b"]), of(&["c"]), of(&[])].into_iter().for_each(|part| all.merge(part));
        assert_eq!((all.count, all.first.as_deref()), (3, Some("a")));
    }
}
