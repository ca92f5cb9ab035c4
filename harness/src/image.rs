//! The image of 01 ("The image"): limits, reading its tables, and laying one out.

/// The field value that names no row.
pub const NONE: u16 = 0xFFFF;
/// Bytes of the trailer.
pub const TRAILER: usize = 16;
/// The mark that ends an image.
pub const MARK: [u8; 2] = [0x4E, 0x54];

/// The fixed limits of 01, "The image".
pub mod limits {
    use std::ops::RangeInclusive;

    pub const IMAGE: RangeInclusive<usize> = 38..=16_816;
    pub const TYPES: RangeInclusive<usize> = 2..=16;
    pub const VARIABLES: RangeInclusive<usize> = 0..=64;
    pub const STATES: RangeInclusive<usize> = 1..=64;
    pub const GATES: RangeInclusive<usize> = 1..=64;
    pub const ROWS: RangeInclusive<usize> = 2..=2048;
    pub const VALUES: RangeInclusive<u16> = 1..=4096;
    /// Rows of a vector or of a list of offers.
    pub const VECTOR: u16 = 8;
    /// Rows of a list of branches or arms.
    pub const BRANCHES: u16 = 64;
    /// Units of a step.
    pub const BUDGET: u32 = 1_000_000;
}

/// One row: a code and three fields.
#[derive(Clone, Copy, Debug, Default, PartialEq, Eq)]
pub struct Row {
    pub code: u16,
    pub a: u16,
    pub b: u16,
    pub c: u16,
}

impl Row {
    pub const fn new(code: u16, a: u16, b: u16, c: u16) -> Row {
        Row { code, a, b, c }
    }

    pub fn from_bytes(bytes: [u8; 8]) -> Row {
        let word = u64::from_le_bytes(bytes);
        let part = |i: u32| (word >> (16 * i)) as u16;
        Row::new(part(0), part(1), part(2), part(3))
    }

    fn to_bytes(self) -> [u8; 8] {
        let parts = [self.code, self.a, self.b, self.c];
        let word = parts.iter().rev().fold(0, |w, &p| w << 16 | u64::from(p));
        word.to_le_bytes()
    }

    pub fn fields(&mut self) -> [&mut u16; 3] {
        [&mut self.a, &mut self.b, &mut self.c]
    }

    /// The rows that this one names.
    pub fn children(mut self) -> impl Iterator<Item = u16> {
        let naming = naming_fields(self.code);
        let fields = self.fields().map(|field| *field);
        let named = (0..3).filter(move |i| naming & (1 << i) != 0);
        named.map(move |i| fields[i]).filter(|&f| f != NONE)
    }
}

/// Which fields of a code name rows: bit 0 for a, 1 for b, 2 for c.
pub fn naming_fields(code: u16) -> u8 {
    match code {
        16 | 19 | 49 | 51 | 55 => 0b001,
        17 | 18 | 20..=27 | 35 | 40 | 41 | 50 | 54 | 56 | 57 | 59 | 60 => 0b011,
        46 | 52 => 0b010,
        44 => 0b110,
        45 => 0b100,
        58 => 0b111,
        _ => 0,
    }
}

/// The 16-bit number at byte `at`.
pub fn number(bytes: &[u8], at: usize) -> u16 {
    u16::from_le_bytes([bytes[at], bytes[at + 1]])
}

/// The tables of an image whose frame is right.
#[derive(Clone, Copy)]
pub struct Image<'a> {
    pub types: &'a [[u8; 2]],
    pub variables: &'a [[u8; 4]],
    pub states: &'a [[u8; 2]],
    pub rows: &'a [[u8; 8]],
    pub gates: u16,
    pub condition: u16,
    /// The mask of all variables.
    pub all: u64,
    /// The mask of the parameters.
    pub parameters: u64,
}

impl Image<'_> {
    pub fn row(&self, row: usize) -> Row {
        Row::from_bytes(self.rows[row])
    }

    /// The number of values of a type.
    pub fn values(&self, kind: u16) -> u16 {
        u16::from_le_bytes(self.types[usize::from(kind)])
    }

    pub fn type_of(&self, variable: u16) -> u16 {
        number(&self.variables[usize::from(variable)], 0)
    }

    /// The row of a state's action.
    pub fn action(&self, state: usize) -> u16 {
        u16::from_le_bytes(self.states[state])
    }
}

/// Tables and rows on their way to bytes.
#[derive(Clone, Debug, Default)]
pub struct Draft {
    pub types: Vec<u16>,
    /// Type, then 1 for a parameter.
    pub variables: Vec<(u16, u16)>,
    pub states: Vec<u16>,
    pub rows: Vec<Row>,
    pub gates: u16,
    pub condition: u16,
}

impl Draft {
    pub fn clear(&mut self) {
        self.types.clear();
        self.variables.clear();
        self.states.clear();
        self.rows.clear();
    }

    /// The image's bytes, in place of what `out` held.
    pub fn lay_out(&self, out: &mut Vec<u8>) {
        out.clear();
        let mut put = |n: u16| out.extend_from_slice(&n.to_le_bytes());
        self.types.iter().for_each(|&values| put(values));
        for &(kind, parameter) in &self.variables {
            put(kind);
            put(parameter);
        }
        self.states.iter().for_each(|&row| put(row));
        for row in &self.rows {
            out.extend_from_slice(&row.to_bytes());
        }
        self.put_trailer(out);
    }

    fn put_trailer(&self, out: &mut Vec<u8>) {
        let variables = 2 * self.types.len();
        let states = variables + 4 * self.variables.len();
        let rows = states + 2 * self.states.len();
        let length = out.len() + TRAILER;
        let starts = [0, variables, states, rows].map(|start| start as u16);
        let others = [self.gates, self.condition, length as u16];
        for n in starts.into_iter().chain(others) {
            out.extend_from_slice(&n.to_le_bytes());
        }
        out.extend_from_slice(&MARK);
    }

    pub fn bytes(&self) -> Vec<u8> {
        let mut out = Vec::new();
        self.lay_out(&mut out);
        out
    }
}

/// Numbers as 01 writes them, with `n` for none and `x` before hexadecimal ones.
pub fn numbers(text: &str) -> Vec<u16> {
    let number = |field: &str| match field.strip_prefix('x') {
        Some(hex) => u16::from_str_radix(hex, 16).expect("a hexadecimal number"),
        None if field == "n" => NONE,
        None => field.parse().expect("a number"),
    };
    let fields = text.split(',').map(str::trim).filter(|field| !field.is_empty());
    fields.map(number).collect()
}

/// Rows as 01 writes them, between semicolons; fields left out are 0.
pub fn rows(text: &str) -> Vec<Row> {
    let row = |text: &str| {
        let mut fields = numbers(text);
        fields.resize(4, 0);
        Row::new(fields[0], fields[1], fields[2], fields[3])
    };
    text.split(';').filter(|text| !text.trim().is_empty()).map(row).collect()
}

/// The worked automaton of 01, "Worked automaton and edges".
pub fn table_writer() -> Draft {
    let text = "2,0,1; 2,1,0; 44,0,1,n; 49,2; 53,1; 54,3,4; 1,0; 2,1,127; 27,6,7; 1,0; 1,1; \
                40,10,n; 40,9,11; 52,1,12; 1,0; 2,1,1; 20,14,15; 44,0,16,n; 49,17; 53,1; \
                54,18,19; 54,13,20; 34,0,1; 52,2,n; 53,2; 54,23,24; 34,0,0; 58,26,25,n; \
                58,22,21,27; 56,8,28; 55,n";
    Draft {
        types: vec![2, 0],
        variables: vec![(1, 0), (1, 1)],
        states: vec![5, 29, 30],
        rows: rows(text),
        gates: 3,
        condition: 0,
    }
}
