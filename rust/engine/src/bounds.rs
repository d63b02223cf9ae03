/// The largest volume in litres.
pub const TOP: u64 = (1 << 56) - 1;
/// The last moment.
pub const LAST_MOMENT: u64 = (1 << 40) - 1;
/// How many accounts a book has room for.
pub const ACCOUNTS: usize = 64;
/// How many reservations a book has room for.
pub const RESERVATIONS: usize = 256;
/// The most legs of a chain.
pub const LEGS: usize = 16;
/// How many entries a roll takes.
pub const ROLL_ENTRIES: usize = 256;
