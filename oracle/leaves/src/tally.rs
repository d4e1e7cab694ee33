//! How many cases of a function ran and how many differed.

#[derive(Clone, Debug, Default)]
pub struct Tally {
    pub name: String,
    pub cases: u64,
    pub differed: u64,
    /// Cases that differ by the sign of a zero alone, where that is left open.
    pub zero_signs: u64,
    /// Cases that the Rust refuses with 19, where it panics.
    pub refused: u64,
    pub first: Option<String>,
}

impl Tally {
    pub fn new(name: &str) -> Tally {
        Tally { name: name.to_string(), ..Tally::default() }
    }

    /// Counts one case; `input` is asked for only when the first one differs.
    #[inline(always)]
    pub fn count(&mut self, equal: bool, input: impl FnOnce() -> String) {
        self.cases += 1;
        if !equal {
            self.differs(input);
        }
    }

    #[cold]
    fn differs(&mut self, input: impl FnOnce() -> String) {
        self.differed += 1;
        if self.first.is_none() {
            self.first = Some(input());
        }
    }

    /// Takes in the counts of another part of the same comparison.
    pub fn join(&mut self, other: Tally) {
        self.cases += other.cases;
        self.differed += other.differed;
        self.zero_signs += other.zero_signs;
        self.refused += other.refused;
        if self.first.is_none() {
            self.first = other.first;
        }
    }

    pub fn print(&self) {
        println!("{:<24} {:>12} cases {:>10} differ", self.name, self.cases, self.differed);
        if self.zero_signs > 0 {
            println!("{:<24} {:>12} cases differ by the sign of a zero alone", "", self.zero_signs);
        }
        if self.refused > 0 {
            println!("{:<24} {:>12} cases are refused with 19", "", self.refused);
        }
        if let Some(first) = &self.first {
            println!("{:<24} first: {}", "", first);
        }
    }
}
