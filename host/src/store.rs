//! The store: tables and entries, with names for what they hold.

use crate::answer::Refusal;
use crate::data::{DataType, KeyType};
use crate::ffi;
use crate::layout;
use std::fmt;
use std::time::Duration;

/// The tables and entries that sessions fill. It takes 47 KB: keep it in a box or in a place of its own.
///
/// ```
/// # use peers::{DataType, Session, Store, Value, READING_ROOM};
/// # let (mut store, mut session) = (Store::boxed(), Session::answerer(b"east", b"west")?);
/// # let mut rest = &b"HAProxyS 2.1\neast\nwest 7 0\n\n\x82\x06\x01\x01t\x02\x04\x04\n\x80\x09\0\0\0\x09key1\x05"[..];
/// # while !rest.is_empty() {
/// #     let taken = session.read(&mut store, rest, &mut [0; READING_ROOM]).taken;
/// #     rest = &rest[taken..];
/// # }
/// let table = store.named(b"t").expect("the peer has defined it");
/// assert_eq!(store.entries_of(table.place()), 1);
/// for entry in store.entries() {
///     assert_eq!((entry.key(), entry.remaining()), (&b"key1"[..], None));
///     assert_eq!(entry.value(DataType::Gpc0), Some(Value::Number(5)));
/// }
/// # Ok::<(), peers::Refusal>(())
/// ```
#[derive(Clone, PartialEq, Eq)]
pub struct Store {
    store: layout::Store,
}

/// A held table.
#[derive(Clone, Copy)]
pub struct Table<'a> {
    place: usize,
    table: &'a layout::Table,
}

/// A held entry, with its table.
#[derive(Clone, Copy)]
pub struct Entry<'a> {
    place: usize,
    entry: &'a layout::Entry,
    table: Table<'a>,
}

/// A value of an entry.
#[derive(Clone, Copy, Debug, PartialEq, Eq, Hash)]
pub enum Value {
    /// The server ID.
    Server(i32),
    /// A counter or a tag.
    Number(u64),
    /// A rate.
    Rate {
        /// Elapsed milliseconds of the current period.
        elapsed: u64,
        /// The count of the current period.
        current: u64,
        /// The count of the previous period.
        previous: u64,
    },
}

impl Store {
    /// An empty store, by value: a thread needs 256 KB of stack for it, and [`Store::boxed`] none.
    pub fn new() -> Store {
        Store {
            store: ffi::empty_store(),
        }
    }

    /// An empty store in a box, which never lies on the stack.
    pub fn boxed() -> Box<Store> {
        ffi::boxed_store()
    }

    /// The held tables, by place.
    pub fn tables(&self) -> impl Iterator<Item = Table<'_>> {
        (0..layout::TABLES).filter_map(|place| self.table(place))
    }

    /// The held table at a place.
    pub fn table(&self, place: usize) -> Option<Table<'_>> {
        let table = self.store.tables.get(place)?;
        (table.held == 1).then_some(Table { place, table })
    }

    /// The held table of a name.
    pub fn named(&self, name: &[u8]) -> Option<Table<'_>> {
        self.tables().find(|table| table.name() == name)
    }

    /// The held entries, by place.
    pub fn entries(&self) -> impl Iterator<Item = Entry<'_>> {
        (0..layout::ENTRIES).filter_map(|place| self.entry(place))
    }

    /// The held entry at a place.
    pub fn entry(&self, place: usize) -> Option<Entry<'_>> {
        let entry = self.store.entries.get(place)?;
        let table = self.table(entry.table)?;
        (entry.held == 1).then_some(Entry {
            place,
            entry,
            table,
        })
    }

    /// How many entries the table at this place has, 0 where no table is held: the count that the store keeps, without a walk. 0 also past
    /// the last place.
    ///
    /// It is the field as the store has it, also of a store that the host spoiled in [`Store::layout_mut`]: nothing is tested here. Every
    /// call keeps the counts right, and refuses a store whose counts are off with [`Refusal::Unsound`].
    pub fn entries_of(&self, table: usize) -> u32 {
        self.store.counts.get(table).copied().unwrap_or(0)
    }

    /// Passes time: entries with at most this much remaining are freed, the times of the others are lowered by it, and entries without a
    /// remaining time stay. No time frees the entries with none left.
    ///
    /// Whole milliseconds count; what is less stays with the host, who adds it to the next time. A host calls it on its ticks with the time
    /// since the last one, once for each store, whatever sessions there are. Two calls with whole milliseconds leave what one call with
    /// their sum leaves.
    ///
    /// ```
    /// use std::time::{Duration, Instant};
    ///
    /// fn tick(store: &mut peers::Store, passed: &mut Instant) -> Result<(), peers::Refusal> {
    ///     let since = Duration::from_millis(passed.elapsed().as_millis() as u64);
    ///     *passed += since; // what is less than a millisecond stays for the next tick
    ///     store.pass_time(since)
    /// }
    /// # let (mut store, mut passed) = (peers::Store::boxed(), Instant::now());
    /// # tick(&mut store, &mut passed).unwrap();
    /// ```
    ///
    /// # Errors
    ///
    /// [`Refusal::Unsound`]; the store is then as it was.
    pub fn pass_time(&mut self, time: Duration) -> Result<(), Refusal> {
        // as many milliseconds as fit free every entry that has a time, and more would free no other
        let milliseconds = u32::try_from(time.as_millis()).unwrap_or(u32::MAX);
        match ffi::pass_time(&mut self.store, milliseconds) {
            0 => Ok(()),
            _ => Err(Refusal::Unsound),
        }
    }

    /// Frees the entry at a place, lowers its table's count by one, and says whether an entry was held there.
    ///
    /// A host that frees an entry in [`Store::layout_mut`] lowers the count itself, or every later call is refused with
    /// [`Refusal::Unsound`].
    pub fn free_entry(&mut self, place: usize) -> bool {
        let Some(table) = self.entry(place).map(|entry| entry.table().place()) else {
            return false;
        };
        self.store.entries[place].held = 0;
        // it wraps, so that a count which was off before stays off
        let count = &mut self.store.counts[table];
        *count = count.wrapping_sub(1);
        true
    }

    /// Frees the table at a place with its entries, so that its count is 0, and says whether one was held there.
    ///
    /// No session that goes on may use it ([`Session::uses`](crate::Session::uses)): such a session would be refused with
    /// [`Refusal::Unsound`](crate::Refusal::Unsound) while the place is free. Once another table takes the place, its next update would be
    /// committed there, to the wrong table, and acknowledged, and the other table's entries would be sent as those of the one that was
    /// defined to the peer. Give each such connection a new session first.
    pub fn free_table(&mut self, place: usize) -> bool {
        if self.table(place).is_none() {
            return false;
        }
        let entries = self.store.entries.iter_mut();
        for entry in entries.filter(|entry| entry.table == place) {
            entry.held = 0;
        }
        self.store.counts[place] = 0;
        self.store.tables[place].held = 0;
        true
    }

    /// The store as the library has it.
    pub fn layout(&self) -> &layout::Store {
        &self.store
    }

    /// The store as the library has it, to be changed: any content is allowed.
    pub fn layout_mut(&mut self) -> &mut layout::Store {
        &mut self.store
    }
}

impl Default for Store {
    fn default() -> Store {
        Store::new()
    }
}

impl From<layout::Store> for Store {
    fn from(store: layout::Store) -> Store {
        Store { store }
    }
}

impl fmt::Debug for Store {
    fn fmt(&self, f: &mut fmt::Formatter<'_>) -> fmt::Result {
        f.debug_struct("Store")
            .field("tables", &self.tables().collect::<Vec<_>>())
            .field("entries", &self.entries().count())
            .finish()
    }
}

/// Its place, name, key type, data types and times.
impl fmt::Debug for Table<'_> {
    fn fmt(&self, f: &mut fmt::Formatter<'_>) -> fmt::Result {
        let types: Vec<_> = self.data_types().map(DataType::name).collect();
        f.debug_struct("Table")
            .field("place", &self.place)
            .field("name", &format_args!("{}", self.name().escape_ascii()))
            .field("key_type", &self.key_type())
            .field("key_len", &self.key_len())
            .field("data_types", &types)
            .field("expiry", &self.expiry())
            .field("periods", &Present(self.periods()))
            .finish()
    }
}

/// Its place, its table's name, its key's bytes, its remaining time and its present values.
impl fmt::Debug for Entry<'_> {
    fn fmt(&self, f: &mut fmt::Formatter<'_>) -> fmt::Result {
        f.debug_struct("Entry")
            .field("place", &self.place)
            .field(
                "table",
                &format_args!("{}", self.table.name().escape_ascii()),
            )
            .field("key", &format_args!("{:02X?}", self.key()))
            .field("remaining", &self.remaining())
            .field("values", &Present(self.values()))
            .finish()
    }
}

/// Data types by name, each with what it has.
struct Present<I>(I);

impl<I: Iterator<Item = (DataType, V)> + Clone, V: fmt::Debug> fmt::Debug for Present<I> {
    fn fmt(&self, f: &mut fmt::Formatter<'_>) -> fmt::Result {
        let named = self.0.clone().map(|(t, value)| (t.name(), value));
        let mut map = f.debug_map();
        for (name, value) in named {
            map.key(&format_args!("{name}")).value(&value);
        }
        map.finish()
    }
}

impl<'a> Table<'a> {
    /// Its place, which answers name.
    pub fn place(&self) -> usize {
        self.place
    }

    /// Its name; a sound store's tables have letters and digits of ASCII, `.`, `_`, `-`, `/` and `:` in it.
    pub fn name(&self) -> &'a [u8] {
        front(&self.table.name, self.table.name_len)
    }

    /// The type of its keys; a sound store's tables have one.
    pub fn key_type(&self) -> Option<KeyType> {
        u8::try_from(self.table.key_type).ok().and_then(KeyType::of)
    }

    /// The length of its keys; for strings the largest.
    pub fn key_len(&self) -> usize {
        self.table.key_len as usize
    }

    /// Whether its entries have values of a data type.
    pub fn has(&self, data_type: DataType) -> bool {
        self.table.data_types & data_type.bit() != 0
    }

    /// The data types of its entries, ascending.
    pub fn data_types(self) -> impl Iterator<Item = DataType> + Clone + 'a {
        DataType::ALL.into_iter().filter(move |t| self.has(*t))
    }

    /// The expiry in milliseconds, if its last definition had one.
    pub fn expiry(&self) -> Option<u32> {
        (self.table.timed == 1).then_some(self.table.expiry)
    }

    /// The period of a rate in milliseconds, if its last definition had one.
    pub fn period(&self, data_type: DataType) -> Option<u32> {
        let place = data_type.period_place()?;
        let known = self.table.timed == 1 && self.has(data_type);
        known.then_some(self.table.periods[place])
    }

    /// Its rates with their periods in milliseconds, ascending; none where its last definition had no times.
    pub fn periods(self) -> impl Iterator<Item = (DataType, u32)> + Clone + 'a {
        let types = self.data_types();
        types.filter_map(move |t| Some((t, self.period(t)?)))
    }
}

impl<'a> Entry<'a> {
    /// Its place, which answers name.
    pub fn place(&self) -> usize {
        self.place
    }

    /// Its table.
    pub fn table(&self) -> Table<'a> {
        self.table
    }

    /// Its key.
    pub fn key(&self) -> &'a [u8] {
        front(&self.entry.key, self.entry.key_len)
    }

    /// Its remaining time as of the last [`Store::pass_time`], if it has one.
    pub fn remaining(&self) -> Option<Duration> {
        let time = Duration::from_millis(self.entry.remaining.into());
        (self.entry.timed == 1).then_some(time)
    }

    /// Its value of a data type, if its table has that type.
    pub fn value(&self, data_type: DataType) -> Option<Value> {
        self.table.has(data_type).then(|| self.held(data_type))
    }

    /// Its data types with their values, ascending.
    pub fn values(self) -> impl Iterator<Item = (DataType, Value)> + Clone + 'a {
        self.table.data_types().map(move |t| (t, self.held(t)))
    }

    fn held(&self, data_type: DataType) -> Value {
        let values = &self.entry.values;
        match data_type.slot() {
            None => Value::Server(self.entry.server_id),
            Some(slot) if data_type.is_rate() => Value::Rate {
                elapsed: values[slot],
                current: values[slot + 1],
                previous: values[slot + 2],
            },
            Some(slot) => Value::Number(values[slot]),
        }
    }
}

/// The first bytes of an array; all of it where the length is past it.
pub(crate) fn front(bytes: &[u8], len: usize) -> &[u8] {
    &bytes[..len.min(bytes.len())]
}
