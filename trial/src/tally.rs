//! What a trial counted.

/// A number that an interface answers, with its word.
pub type Named = (u8, &'static str);

/// Differences that are printed in full.
const PRINTED: u64 = 3;

/// Cases by answer, and differences.
pub struct Tally {
    /// What the cases have in common, where a trial has several tallies.
    name: &'static str,
    numbers: &'static [Named],
    /// How often each of them has to occur.
    least: u64,
    counts: [u64; 256],
    cases: u64,
    differences: u64,
    /// What else should have occurred.
    lacks: Vec<String>,
}

impl Tally {
    /// `numbers`: those that have to occur.
    pub fn new(numbers: &'static [Named]) -> Tally {
        Tally {
            name: "",
            numbers,
            least: 1,
            counts: [0; 256],
            cases: 0,
            differences: 0,
            lacks: Vec::new(),
        }
    }

    /// The tally of cases with a name, each number of which has to occur so
    /// often.
    pub fn of(name: &'static str, numbers: &'static [Named], least: u64) -> Tally {
        Tally {
            name,
            least,
            ..Tally::new(numbers)
        }
    }

    /// Counts a case: the number of the common answer, or the difference.
    pub fn note(&mut self, outcome: Result<u8, String>) {
        self.cases += 1;
        match outcome {
            Ok(number) => self.counts[number as usize] += 1,
            Err(difference) => {
                self.differences += 1;
                if self.differences <= PRINTED {
                    println!("{difference}");
                }
            }
        }
    }

    /// Names something besides the numbers that has occurred too seldom.
    pub fn lack(&mut self, what: String) {
        self.lacks.push(what);
    }

    pub fn cases(&self) -> u64 {
        self.cases
    }

    pub fn differences(&self) -> u64 {
        self.differences
    }

    /// Numbers that occurred less often than they have to.
    pub fn missing(&self) -> Vec<Named> {
        let seldom = |named: &&Named| self.counts[named.0 as usize] < self.least;
        self.numbers.iter().filter(seldom).copied().collect()
    }

    /// All that has occurred less often than it has to.
    pub fn lacks(&self) -> Vec<String> {
        let numbers = self.missing().into_iter();
        let numbers = numbers.map(|(number, word)| format!("{number} {word}"));
        numbers.chain(self.lacks.iter().cloned()).collect()
    }

    pub fn print(&self) {
        if !self.name.is_empty() {
            println!("{}", self.name);
        }
        for (number, word) in self.numbers {
            let count = self.counts[*number as usize];
            println!("{number:>4} {word:<12}{count:>12}");
        }
        println!("     differences {:>12}", self.differences);
    }
}
