//! Keys, the rows that a batch function returns for them, those of loaded keys, and all of these as the library has them.

use crate::calls::{KeyLists, Outcomes, Reply, Texts, BATCH_FAULT, KEY_FAULT, SAME_COLUMNS};
use crate::Loader;
use std::collections::{HashMap, HashSet};
use std::fmt;
use std::sync::Arc;

/// What a loader is asked for: as many texts as it has columns.
#[derive(Clone, Debug, PartialEq, Eq, Hash, PartialOrd, Ord)]
pub enum Key {
    /// All rows, of a loader by no column. It stands only where a client is told a key: a batch of such a loader has no keys.
    All,
    /// Of a loader by one column.
    One(String),
    /// Of a loader by two columns.
    Pair(String, String),
}

impl Key {
    /// The first text, which is the only one of a loader by one column. It is empty for [`Key::All`].
    pub fn first(&self) -> &str {
        match self {
            Self::All => "",
            Self::One(first) | Self::Pair(first, _) => first,
        }
    }

    fn texts(&self) -> Vec<&str> {
        match self {
            Self::All => vec![],
            Self::One(text) => vec![text],
            Self::Pair(first, second) => vec![first, second],
        }
    }

    /// The texts of a key of this loader, or why it can't be one.
    pub(crate) fn flat(&self, loader: &Loader) -> Result<Texts, String> {
        flat_keys(loader, std::slice::from_ref(self))
    }
}

/// The texts of keys of this loader, or why these can't be some.
pub(crate) fn flat_keys(loader: &Loader, keys: &[Key]) -> Result<Texts, String> {
    let (mut flat, wanted) = (Texts::default(), loader.columns.len());
    for key in keys {
        let texts = key.texts();
        if texts.len() != wanted {
            return Err(format!("loader {}: a key of {} texts for {wanted} columns", loader.name, texts.len()));
        }
        flat.extend(texts);
    }
    if flat.fits() {
        Ok(flat)
    } else {
        Err(format!("loader {}: the key has more than 4,294,967,295 bytes", loader.name))
    }
}

impl From<&str> for Key {
    fn from(text: &str) -> Self {
        Self::One(text.to_owned())
    }
}

impl From<(&str, &str)> for Key {
    fn from((first, second): (&str, &str)) -> Self {
        Self::Pair(first.to_owned(), second.to_owned())
    }
}

/// Why a batch failed as a whole. An error becomes one by `?`, with its text.
#[derive(Clone, Debug, PartialEq, Eq)]
pub struct BatchFault(String);

impl BatchFault {
    /// A fault with this text.
    pub fn new(text: impl Into<String>) -> Self {
        Self(text.into())
    }
}

// it is no `std::error::Error` itself, since it would then become a fault in two ways
impl<E: std::error::Error> From<E> for BatchFault {
    fn from(error: E) -> Self {
        Self(error.to_string())
    }
}

impl fmt::Display for BatchFault {
    fn fmt(&self, to: &mut fmt::Formatter<'_>) -> fmt::Result {
        to.write_str(&self.0)
    }
}

/// A value for each column. `None` is null, and so is the empty text.
pub type Row = Vec<Option<String>>;

/// What a source has for one key.
#[derive(Clone, Debug, PartialEq, Eq)]
pub enum Item {
    /// Its rows.
    Rows(Vec<Row>),
    /// Why it has none.
    Fault(String),
}

impl From<Vec<Row>> for Item {
    fn from(rows: Vec<Row>) -> Self {
        Self::Rows(rows)
    }
}

impl From<Row> for Item {
    fn from(row: Row) -> Self {
        Self::Rows(vec![row])
    }
}

impl From<Option<Row>> for Item {
    fn from(row: Option<Row>) -> Self {
        Self::Rows(row.into_iter().collect())
    }
}

impl<T: Into<Item>, E: std::error::Error> From<Result<T, E>> for Item {
    fn from(result: Result<T, E>) -> Self {
        result.map_or_else(|error| Self::Fault(error.to_string()), Into::into)
    }
}

/// A row of a key that was loaded.
#[derive(Clone, Debug, PartialEq, Eq)]
pub struct LoadedRow {
    /// The names of its columns, which rows share.
    pub columns: Arc<[String]>,
    /// A value for each column.
    pub values: Row,
}

impl LoadedRow {
    /// The value in the column of this name. `None` is null, and no such column.
    pub fn get(&self, column: &str) -> Option<&str> {
        let place = self.columns.iter().position(|name| name == column)?;
        self.values[place].as_deref()
    }
}

/// What was loaded for one key.
#[derive(Clone, Debug, PartialEq, Eq)]
pub enum Loaded {
    /// Its rows.
    Rows(Vec<LoadedRow>),
    /// Why it has none.
    KeyFault(String),
    /// Why its batch failed as a whole.
    BatchFault(String),
}

/// The outcomes of loaded keys, as the library wrote them.
pub(crate) fn loaded_of(outcomes: &Outcomes) -> Vec<Loaded> {
    let mut rows = rows_of(outcomes).into_iter();
    let mut faults = outcomes.faults.iter().map(str::to_owned);
    let mut fault = || faults.next().expect("a text for each fault");
    let loaded = outcomes.rows.iter().map(|&count| match count {
        KEY_FAULT => Loaded::KeyFault(fault()),
        BATCH_FAULT => Loaded::BatchFault(fault()),
        count => Loaded::Rows(rows.by_ref().take(count as usize).collect()),
    });
    loaded.collect()
}

/// The rows of all keys.
fn rows_of(outcomes: &Outcomes) -> Vec<LoadedRow> {
    let mut texts = outcomes.texts.iter();
    let mut names: Arc<[String]> = Arc::new([]);
    let rows = outcomes.columns.iter().map(|&width| {
        if width != SAME_COLUMNS {
            names = texts.by_ref().take(width as usize).map(str::to_owned).collect();
        }
        let values = texts.by_ref().take(names.len()).map(|text| Some(text.to_owned()).filter(|text| !text.is_empty()));
        LoadedRow { columns: Arc::clone(&names), values: values.collect() }
    });
    rows.collect()
}

/// What a batch function returns.
#[derive(Clone, Debug, PartialEq, Eq)]
pub enum Rows {
    /// An item for each key, in the order of the keys, as a batch function of DataLoader returns them. All rows, for a loader by no column,
    /// are one item.
    Aligned {
        /// The names of the columns.
        columns: Vec<String>,
        /// The items.
        items: Vec<Item>,
    },
    /// The rows of all keys in any order, which the library aligns. A row belongs to the key that it has in the loader's columns, and the
    /// rows of a key keep their order. A row of a key that wasn't asked for fails the batch.
    Grouped {
        /// The names of the columns.
        columns: Vec<String>,
        /// The rows.
        rows: Vec<Row>,
    },
}

impl Rows {
    /// An item for each key: a row, a list of rows, `None` for no row, or an error.
    pub fn aligned<C: Into<String>, I: Into<Item>>(columns: impl IntoIterator<Item = C>, items: impl IntoIterator<Item = I>) -> Self {
        Self::Aligned { columns: owned(columns), items: items.into_iter().map(Into::into).collect() }
    }

    /// The rows of all keys in any order.
    pub fn grouped<C: Into<String>>(columns: impl IntoIterator<Item = C>, rows: impl IntoIterator<Item = Row>) -> Self {
        Self::Grouped { columns: owned(columns), rows: rows.into_iter().collect() }
    }

    /// The reply to these keys, or why the rows don't fit them.
    pub(crate) fn into_reply(self, loader: &Loader, keys: &[Key]) -> Result<Reply, String> {
        let (columns, items, is_keyed) = match self {
            Self::Aligned { columns, items } => (columns, items, false),
            Self::Grouped { columns, rows } => (columns, vec![Item::Rows(rows)], !loader.columns.is_empty()),
        };
        let wanted = if is_keyed || loader.columns.is_empty() { 1 } else { keys.len() };
        reply(&columns, &items, wanted, is_keyed).map_err(|text| format!("loader {}: {text}", loader.name))
    }
}

fn owned<C: Into<String>>(texts: impl IntoIterator<Item = C>) -> Vec<String> {
    texts.into_iter().map(Into::into).collect()
}

fn check(row: &Row, columns: &[String]) -> Result<(), String> {
    match row.len() {
        0 => Err("a row has no columns".to_owned()),
        length if length == columns.len() => Ok(()),
        length => Err(format!("a row of {length} values for {} columns", columns.len())),
    }
}

/// The key that each row of a keyed reply has in the loader's columns, or which of these is missing.
fn keys_in<'r>(loader: &Loader, reply: &'r Reply) -> Result<Vec<Vec<&'r str>>, String> {
    let texts: Vec<_> = reply.texts.iter().collect();
    let (names, fields) = texts.split_at(reply.columns);
    if fields.is_empty() {
        return Ok(vec![]);
    }
    let place = |column| names.iter().position(|name| name == column).ok_or_else(|| format!("its rows have no column {column}"));
    let places = loader.columns.iter().map(place).collect::<Result<Vec<_>, _>>()?;
    Ok(fields.chunks(names.len()).map(|row| places.iter().map(|&place| row[place]).collect()).collect())
}

/// A keyed reply without the rows of which the database cast the key, as `1` for `01`, and with a fault of each key that it cast; or why the
/// library refuses it: a row has another key that wasn't asked for, or the rows lack a column that has keys.
pub(crate) fn without_casts(loader: &Loader, keys: &[Key], reply: &Reply) -> Result<Reply, String> {
    let compared = |text: &str| if loader.folds { text.to_ascii_lowercase() } else { text.to_owned() };
    let comparable = |texts: &[&str]| texts.iter().map(|text| compared(text)).collect::<Vec<_>>();
    let cast_of = |texts: &[&str]| texts.iter().map(|text| as_cast(text)).collect::<Vec<_>>();
    let found = keys_in(loader, reply).map_err(|text| format!("loader {}: {text}", loader.name))?;
    let found: Vec<_> = found.into_iter().map(|key| (comparable(&key), key)).collect();
    let asked: HashSet<_> = keys.iter().map(|key| comparable(&key.texts())).collect();
    let having_rows: HashSet<_> = found.iter().map(|(key, _)| key).collect();
    let lacking_rows = keys.iter().map(|key| (key, having_rows.contains(&comparable(&key.texts())))).enumerate();
    let lacking_rows: Vec<_> = lacking_rows.filter(|(_, (_, has_rows))| !has_rows).map(|(place, (key, _))| (place, key.texts())).collect();
    let mut casts: HashMap<_, Option<&Vec<&str>>> = lacking_rows.iter().map(|(_, key)| (cast_of(key), None)).collect();
    for (row, (key, texts)) in (1..).zip(&found) {
        if !asked.contains(key) {
            *casts.get_mut(&cast_of(texts)).ok_or_else(|| not_asked(loader, row, texts))? = Some(texts);
        }
    }
    let texts: Vec<_> = reply.texts.iter().collect();
    let (names, fields) = texts.split_at(reply.columns);
    let mut rest = Reply { columns: names.len(), rows: vec![0], faults: vec![], texts: Texts::default(), is_keyed: true };
    rest.texts.extend(names.iter().copied());
    for (row, _) in fields.chunks(names.len().max(1)).zip(&found).filter(|(_, (key, _))| asked.contains(key)) {
        rest.rows[0] += 1;
        rest.texts.extend(row.iter().copied());
    }
    for (place, key) in lacking_rows {
        if let Some(other) = casts[&cast_of(&key)] {
            rest.faults.push(place as u32);
            let (other, key) = (other.join("', '"), key.join("', '"));
            rest.texts.extend([&*format!("loader {}: a row of the key '{other}' for the key '{key}'", loader.name)]);
        }
    }
    rest.texts.fits().then_some(rest).ok_or_else(|| format!("loader {}: {TOO_MANY_BYTES}", loader.name))
}

fn not_asked(loader: &Loader, row: usize, key: &[&str]) -> String {
    let columns = format!("column{} {}", if loader.columns.len() == 2 { "s" } else { "" }, loader.columns.join(" and "));
    format!("loader {}: row {row} has the key '{}' in {columns}, which wasn't asked for", loader.name, key.join("', '"))
}

/// What is the same for texts that a database may take for the same: a number, or a text without case and blanks around it.
fn as_cast(text: &str) -> String {
    let text = text.trim().to_lowercase();
    let (mantissa, exponent) = text.split_once('e').unwrap_or((&text, "0"));
    let (minus, digits) = mantissa.strip_prefix('-').map_or(("", mantissa.strip_prefix('+').unwrap_or(mantissa)), |digits| ("-", digits));
    let (whole, fraction) = digits.split_once('.').unwrap_or((digits, ""));
    let digits = format!("{whole}{fraction}");
    let exponent = exponent.parse::<i32>().ok().map(i64::from);
    let Some(exponent) = exponent.filter(|_| !digits.is_empty() && digits.bytes().all(|byte| byte.is_ascii_digit())) else {
        return text;
    };
    match digits.trim_start_matches('0') {
        "" => "0".to_owned(),
        digits => format!("{minus}{}e{}", digits.trim_end_matches('0'), exponent - fraction.len() as i64 + digits.len() as i64),
    }
}

const TOO_MANY_BYTES: &str = "its rows have more than 4,294,967,295 bytes";

/// What the library is given: the names of the columns, then the values of all rows, and then the faults.
fn reply(columns: &[String], items: &[Item], wanted: usize, is_keyed: bool) -> Result<Reply, String> {
    if items.len() != wanted {
        return Err(format!("{} items for {wanted} keys", items.len()));
    }
    let mut reply = Reply { columns: columns.len(), rows: Vec::with_capacity(wanted), faults: vec![], texts: Texts::default(), is_keyed };
    reply.texts.extend(columns.iter().map(String::as_str));
    let mut faults = vec![];
    for item in items {
        match item {
            Item::Fault(text) => {
                reply.rows.push(KEY_FAULT);
                faults.push(text.as_str());
            }
            Item::Rows(rows) => {
                reply.rows.push(u32::try_from(rows.len()).ok().filter(|&count| count < KEY_FAULT).ok_or("too many rows")?);
                for row in rows {
                    check(row, columns)?;
                    reply.texts.extend(row.iter().map(|value| value.as_deref().unwrap_or_default()));
                }
            }
        }
    }
    reply.texts.extend(faults);
    if reply.texts.fits() {
        Ok(reply)
    } else {
        Err(TOO_MANY_BYTES.to_owned())
    }
}

/// The keys of each list. The one key of a loader by no column is left out.
pub fn keys_of(lists: &KeyLists) -> Vec<Vec<Key>> {
    let mut texts = lists.texts.iter().map(str::to_owned);
    let mut text = || texts.next().expect("a text for each that is counted");
    let mut keys = lists.lengths.iter().map(|length| match length {
        0 => None,
        1 => Some(Key::One(text())),
        _ => Some(Key::Pair(text(), text())),
    });
    lists.keys.iter().map(|&count| keys.by_ref().take(count as usize).flatten().collect()).collect()
}
