// A writer of bid files record by record, and the seeded numbers that the programs here draw from.

// A small generator of 64-bit numbers: the same seed always gives the same numbers.
pub struct Random {
    state: u64,
}

impl Random {
    pub fn new(seed: u64) -> Random {
        Random { state: seed }
    }

    pub fn next(&mut self) -> u64 {
        self.state = self.state.wrapping_add(0x9E37_79B9_7F4A_7C15);
        let mut mixed = self.state;
        mixed = (mixed ^ (mixed >> 30)).wrapping_mul(0xBF58_476D_1CE4_E5B9);
        mixed = (mixed ^ (mixed >> 27)).wrapping_mul(0x94D0_49BB_1331_11EB);
        mixed ^ (mixed >> 31)
    }

    // A number from 0 to one less than the bound; 0 if the bound is 0.
    pub fn below(&mut self, bound: u64) -> u64 {
        if bound == 0 {
            0
        } else {
            self.next() % bound
        }
    }

    // A number from the first to the last, both included; the first if the last is lower.
    pub fn within(&mut self, first: u64, last: u64) -> u64 {
        if last <= first {
            first
        } else {
            first + self.below(last - first + 1)
        }
    }

    // True this many times in a hundred.
    pub fn chance(&mut self, percent: u64) -> bool {
        self.below(100) < percent
    }

    pub fn pick<T: Copy>(&mut self, items: &[T]) -> T {
        items[self.below(items.len() as u64) as usize]
    }

    pub fn shuffle<T>(&mut self, items: &mut [T]) {
        for last in (1..items.len()).rev() {
            let other = self.below(last as u64 + 1) as usize;
            items.swap(last, other);
        }
    }
}

// The words of a bid file, and the places of the head words.
#[derive(Clone, Default)]
pub struct BidFile {
    pub words: Vec<u32>,
    pub heads: Vec<usize>,
}

// The fields of a unit record.
#[derive(Clone, Copy)]
pub struct UnitRecord {
    pub capacity: u64,
    pub class: u64,
    pub side: u64,
    pub years: u64,
    pub random: u64,
    pub name: [u8; 8],
}

impl BidFile {
    // A head word of this kind and value, then operands of kind 0.
    pub fn record(&mut self, kind: u32, value: u64, operands: &[u64]) {
        self.heads.push(self.words.len());
        self.words.push(kind << 28 | value as u32 & 0x0FFF_FFFF);
        self.words.extend(operands.iter().map(|&operand| operand as u32 & 0x0FFF_FFFF));
    }

    pub fn terms(&mut self, cap: u64, spread: u64, threshold: u64, curve: u64, order: u64) {
        self.record(1, cap, &[spread, threshold, curve, order]);
    }

    pub fn corner(&mut self, quantity: u64, price: u64) {
        self.record(2, quantity, &[price]);
    }

    pub fn unit(&mut self, unit: &UnitRecord) {
        self.record(3, unit.capacity, &[unit.class, unit.side, unit.years, unit.random]);
        let name = unit.name;
        self.words.push(u32::from_be_bytes([name[0], name[1], name[2], name[3]]));
        self.words.push(u32::from_be_bytes([name[4], name[5], name[6], name[7]]));
    }

    pub fn exit(&mut self, unit: u64, price: u64) {
        self.record(4, unit, &[price]);
    }

    pub fn years(&mut self, unit: u64, years: u64) {
        self.record(5, unit, &[years]);
    }

    pub fn step_back(&mut self) {
        self.record(6, 0, &[]);
    }

    pub fn close(&mut self) {
        self.record(7, 0, &[]);
    }

    pub fn bytes(&self) -> Vec<u8> {
        self.words.iter().flat_map(|word| word.to_be_bytes()).collect()
    }
}

// A name of at most eight characters, padded with spaces.
pub fn padded(name: &str) -> [u8; 8] {
    let mut bytes = [b' '; 8];
    bytes[..name.len()].copy_from_slice(name.as_bytes());
    bytes
}
