//! The book of codes and the codebook: document 01's forms and house rules.

pub const BOOK_ENTRIES: usize = 932;
pub const BOOK_BYTES: usize = 3 * BOOK_ENTRIES;
pub const CODEBOOK_BYTES: usize = 23040;

/// The book's six tables, in the order in which they are stored.
#[derive(Clone, Copy, PartialEq, Eq)]
pub enum Table {
    Mode,
    Vector,
    IntraMean,
    InterMean,
    IntraStage,
    InterStage,
}

pub const TABLES: [Table; 6] = [
    Table::Mode,
    Table::Vector,
    Table::IntraMean,
    Table::InterMean,
    Table::IntraStage,
    Table::InterStage,
];

impl Table {
    pub fn name(self) -> &'static str {
        match self {
            Table::Mode => "mode",
            Table::Vector => "vector",
            Table::IntraMean => "intramean",
            Table::InterMean => "intermean",
            Table::IntraStage => "intrastage",
            Table::InterStage => "interstage",
        }
    }

    pub fn size(self) -> usize {
        match self {
            Table::Mode => 4,
            Table::Vector => 64,
            Table::IntraMean => 256,
            Table::InterMean => 512,
            Table::IntraStage | Table::InterStage => 48,
        }
    }

    /// Place of the table's first entry in the book.
    pub fn start(self) -> usize {
        TABLES
            .iter()
            .take_while(|&&table| table != self)
            .map(|table| table.size())
            .sum()
    }

    /// Entries that share one prefix-free code: a level's eight in the
    /// stage tables, else the whole table.
    pub fn code_size(self) -> usize {
        match self {
            Table::IntraStage | Table::InterStage => 8,
            _ => self.size(),
        }
    }

    fn named(name: &str) -> Option<Table> {
        TABLES.into_iter().find(|table| table.name() == name)
    }
}

/// 932 codes, each a value and a length.
#[derive(Clone, PartialEq, Eq)]
pub struct Book {
    pub entries: Vec<(u16, u8)>,
}

impl Book {
    pub fn house() -> Self {
        let mut entries = Vec::with_capacity(BOOK_ENTRIES);
        for table in TABLES {
            for position in 0..table.size() {
                entries.push(house_code(house_rank(table, position)));
            }
        }
        Self { entries }
    }

    pub fn table(&self, table: Table) -> &[(u16, u8)] {
        &self.entries[table.start()..table.start() + table.size()]
    }

    pub fn set(&mut self, table: Table, position: usize, value: u16, length: u8) {
        self.entries[table.start() + position] = (value, length);
    }

    pub fn longest(&self) -> u8 {
        self.entries.iter().map(|entry| entry.1).max().unwrap_or(0)
    }

    /// Three bytes an entry: the code's high byte, its low byte, its length.
    pub fn to_bytes(&self) -> Vec<u8> {
        self.entries
            .iter()
            .flat_map(|&(value, length)| [(value >> 8) as u8, value as u8, length])
            .collect()
    }

    pub fn from_bytes(bytes: &[u8]) -> Self {
        assert_eq!(bytes.len(), BOOK_BYTES);
        let entries = bytes
            .chunks(3)
            .map(|entry| (u16::from_be_bytes([entry[0], entry[1]]), entry[2]))
            .collect();
        Self { entries }
    }

    /// The book's one file: tables in their order, positions rising
    /// (document 02, §2).
    pub fn file(&self) -> String {
        let mut file = String::new();
        for table in TABLES {
            for (position, (value, length)) in self.table(table).iter().enumerate() {
                file += &format!("{},{position},{length},{value}\n", table.name());
            }
        }
        file
    }

    /// Reads a book file in that order; lines in another are an error with a
    /// message. The refusals are not the oracle's business.
    pub fn parse(text: &str) -> Result<Self, String> {
        let mut entries = Vec::with_capacity(BOOK_ENTRIES);
        for line in text.lines() {
            let (place, entry) = parse_line(line).ok_or(format!("bad book line: {line}"))?;
            if place != entries.len() {
                return Err(format!("book line at another place than its own: {line}"));
            }
            entries.push(entry);
        }
        if entries.len() != BOOK_ENTRIES {
            return Err("a book line is missing".into());
        }
        Ok(Self { entries })
    }

    /// Whether lengths and values are in range and no code begins another.
    pub fn is_sound(&self) -> bool {
        TABLES.iter().all(|&table| {
            self.table(table)
                .chunks(table.code_size())
                .all(|codes| codes.iter().all(in_range) && is_prefix_free(codes))
        })
    }
}

fn parse_line(line: &str) -> Option<(usize, (u16, u8))> {
    let fields: Vec<&str> = line.split(',').collect();
    let [name, position, length, value] = fields[..] else {
        return None;
    };
    let table = Table::named(name)?;
    let position: usize = position.parse().ok()?;
    if position >= table.size() {
        return None;
    }
    let entry = (value.parse().ok()?, length.parse().ok()?);
    Some((table.start() + position, entry))
}

fn in_range(&(value, length): &(u16, u8)) -> bool {
    (1..=32).contains(&length) && u64::from(value) < 1 << length
}

fn is_prefix_free(codes: &[(u16, u8)]) -> bool {
    let begins = |short: (u16, u8), long: (u16, u8)| {
        short.1 <= long.1 && u64::from(long.0) >> (long.1 - short.1) == u64::from(short.0)
    };
    (0..codes.len()).all(|i| (0..codes.len()).all(|j| i == j || !begins(codes[i], codes[j])))
}

/// The house rule's k for an entry.
fn house_rank(table: Table, position: usize) -> u32 {
    let signed = |value: i32| if value > 0 { 2 * value - 1 } else { -2 * value } as u32;
    match table {
        Table::Mode => (position as u32 + 1) % 4,
        Table::Vector => signed(position as i32 - 32),
        Table::IntraMean => position as u32,
        Table::InterMean => signed(position as i32 - 256),
        Table::IntraStage | Table::InterStage => position as u32 % 8,
    }
}

fn house_code(rank: u32) -> (u16, u8) {
    let value = rank + 1;
    (value as u16, 2 * value.ilog2() as u8 + 1)
}

pub fn house_codebook() -> Vec<i8> {
    (0..CODEBOOK_BYTES)
        .map(|i| ((37 * i + i / 16) % 61) as i8 - 30)
        .collect()
}
