//! How a night stands in the file `stdin`, as crates/replay/src/main.rt says it.

/// Whose night it is.
#[derive(Clone, Copy)]
pub enum Kind {
    Solver,
    Checker,
    Cost,
}

/// The place of a cost that does not stand alone.
const NOWHERE: u32 = u32::MAX;

/// Entries as they are lent: those given are repeated.
#[derive(Clone)]
pub struct Lent<T> {
    pub length: usize,
    pub given: Vec<T>,
}

impl<T: Copy> Lent<T> {
    /// So many entries, repeated from these.
    pub fn repeated(length: usize, given: &[T]) -> Self {
        Lent { length, given: given.to_vec() }
    }

    /// These entries and no others.
    pub fn exactly(given: &[T]) -> Self {
        Self::repeated(given.len(), given)
    }

    pub fn entries(&self) -> Vec<T> {
        self.given.iter().copied().cycle().take(self.length).collect()
    }
}

/// Costs as they are lent; one place may hold another cost.
#[derive(Clone)]
pub struct Costs {
    pub lent: Lent<i32>,
    alone: (u32, i32),
}

impl Costs {
    pub fn new(lent: Lent<i32>) -> Self {
        Costs { lent, alone: (NOWHERE, 0) }
    }

    pub fn with(mut self, place: usize, cost: i32) -> Self {
        self.alone = (place as u32, cost);
        self
    }

    pub fn entries(&self) -> Vec<i32> {
        let mut costs = self.lent.entries();
        if let Some(cost) = costs.get_mut(self.alone.0 as usize) {
            *cost = self.alone.1;
        }
        costs
    }
}

/// The bytes of a frame, or of several.
#[derive(Default)]
pub struct Input(pub Vec<u8>);

impl Input {
    pub fn number(&mut self, number: usize) {
        self.0.extend(u32::try_from(number).expect("a number of 4 bytes").to_le_bytes());
    }

    fn list<T: Copy, const BYTES: usize>(&mut self, list: &Lent<T>, bytes: impl Fn(T) -> [u8; BYTES]) {
        let given = &list.given[..list.given.len().min(list.length)];
        self.number(list.length);
        self.number(given.len());
        given.iter().for_each(|&entry| self.0.extend(bytes(entry)));
    }

    pub fn indices(&mut self, list: &Lent<u32>) {
        self.list(list, u32::to_le_bytes);
    }

    pub fn prices(&mut self, list: &Lent<i64>) {
        self.list(list, i64::to_le_bytes);
    }

    /// What every frame begins with.
    pub fn head(&mut self, kind: Kind, name: &str, n: usize, costs: &Costs) {
        assert!(name.len() <= 128, "the program takes no name of more than 128 bytes");
        self.number(kind as usize);
        self.number(name.len());
        self.0.extend(name.bytes());
        self.0.extend((n as u64).to_le_bytes());
        self.list(&costs.lent, i32::to_le_bytes);
        self.0.extend(costs.alone.0.to_le_bytes());
        self.0.extend(costs.alone.1.to_le_bytes());
    }
}
