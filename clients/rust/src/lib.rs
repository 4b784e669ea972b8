//! Rudzkvano for Rust: a GraphQL query executor with DataLoader batching, over its C library. Functions of yours ask for the keys of each
//! batch.
//!
//! ```
//! use rudzkvano::{Loaders, Options, Request, Rows, Server};
//!
//! let schema = "type Query { user(id: ID!): User } type User { id: ID! name: String! }";
//! let bindings = "bindings 1\nloader userById users by id\nfield Query.user one userById arg id\n";
//! let server = Server::new(schema, bindings)?;
//! let mut loaders = Loaders::new();
//! loaders.insert("userById", |keys| {
//!     let names = keys.iter().map(|key| [("1", "Ada"), ("2", "Bob")].into_iter().find(|user| user.0 == key.first()));
//!     Ok(Rows::aligned(["name"], names.map(|user| user.map(|(_, name)| vec![Some(name.to_owned())]))))
//! });
//! let answer = server.answer_text(&Request::query("{user(id:2){name}}"), &mut loaders, &Options::default())?;
//! assert_eq!(answer, r#"{"data":{"user":{"name":"Bob"}}}"#);
//! # Ok::<(), rudzkvano::Error>(())
//! ```
//!
//! [`Server::answer_text`] runs the batches of a round one after another. [`Client::begin`], [`Client::next`], [`Client::orders`],
//! [`Client::reply`] and [`Client::fail`] give the rounds out, for a host that runs their batches at the same time, on threads or as futures.

mod calls;
mod rows;

use calls::{Handle, KeyLists, LoadSizes, LogSizes, Outcomes, Sizes, Texts};
pub use rows::{BatchFault, Item, Key, Loaded, LoadedRow, Row, Rows};
use std::collections::HashMap;
use std::fmt;
use std::sync::{Arc, Mutex, MutexGuard, PoisonError};
use std::time::{Duration, Instant};

/// The version of the C library that is linked: its major, minor and patch number.
pub fn library_version() -> (u32, u32, u32) {
    let version = calls::version();
    (version >> 16, version >> 8 & 0xFF, version & 0xFF)
}

/// What can be asked for: the rows of a table, by none, one or two of its columns.
#[derive(Clone, Debug, PartialEq, Eq)]
pub struct Loader {
    /// Its name in the bindings.
    pub name: String,
    /// The table that it asks for.
    pub table: String,
    /// The columns that it is by.
    pub columns: Vec<String>,
    /// Whether keys that differ in the case of `A` to `Z` alone are the same.
    pub folds: bool,
}

/// What a schema or its bindings are refused for: the fault S`number` of the page on bindings, with its place.
#[derive(Clone, Debug, PartialEq, Eq)]
pub struct SchemaFault {
    /// The number of the fault.
    pub number: u32,
    /// The line, from 1; 0 where the fault has no place.
    pub line: u64,
    /// The column in characters, from 1; 0 where the fault has none.
    pub column: u64,
    /// Whether the line is one of the bindings.
    pub in_bindings: bool,
    /// What is wrong, in a sentence.
    pub reason: String,
}

impl fmt::Display for SchemaFault {
    fn fmt(&self, to: &mut fmt::Formatter<'_>) -> fmt::Result {
        let text = if self.in_bindings { "bindings" } else { "schema" };
        write!(to, "S{} at {text}:{}:{}: {}", self.number, self.line, self.column, self.reason)
    }
}

impl std::error::Error for SchemaFault {}

/// Why a call failed. What a request does wrong is no such error: it is answered.
#[derive(Clone, Debug, PartialEq, Eq)]
pub enum Error {
    /// The schema or the bindings are refused.
    Schema(SchemaFault),
    /// The library refused the call.
    Refused {
        /// The code of the header.
        code: i32,
        /// The name of the code, as `RZ_BUSY`.
        name: String,
        /// A few words on it.
        text: String,
    },
    /// The bindings have no loader of this name.
    NoLoader(String),
    /// A key doesn't fit its loader, or rows don't fit the keys that they are for.
    Misfit(String),
    /// The answer was cancelled ([`Loaders::cancel_when`]).
    Cancelled,
}

impl fmt::Display for Error {
    fn fmt(&self, to: &mut fmt::Formatter<'_>) -> fmt::Result {
        match self {
            Self::Schema(fault) => fault.fmt(to),
            Self::Refused { name, text, .. } => write!(to, "{name}: {text}"),
            Self::NoLoader(name) => write!(to, "the bindings have no loader {name}"),
            Self::Misfit(text) => to.write_str(text),
            Self::Cancelled => to.write_str("the answer was cancelled"),
        }
    }
}

impl std::error::Error for Error {}

/// The code of a call that went well.
fn went_well(code: i32) -> Result<i32, Error> {
    if code >= 0 {
        return Ok(code);
    }
    let (name, text) = calls::words_on(code);
    Err(Error::Refused { code, name, text })
}

/// What is to be answered.
#[derive(Clone, Copy, Debug)]
pub enum Request<'a> {
    /// The JSON text of a request, or of an array of 1 to 16 of these, which share their rounds.
    Json(&'a [u8]),
    /// A query.
    Query {
        /// The GraphQL document.
        query: &'a str,
        /// The operation to run. The empty name is none.
        operation_name: Option<&'a str>,
        /// The JSON text of an object. The empty text is none.
        variables: Option<&'a str>,
    },
}

impl<'a> Request<'a> {
    /// A query with one operation and no variables.
    pub fn query(query: &'a str) -> Self {
        Self::Query { query, operation_name: None, variables: None }
    }
}

/// What limits the batches and the answers of a client.
#[derive(Clone, Debug, Default)]
pub struct Options {
    /// How many keys a batch may have, up to 65,535; 0 is no limit.
    pub max_batch: u32,
    /// The same by the name of a loader, in place of `max_batch`.
    pub max_batch_of: HashMap<String, u32>,
    /// How many bytes an answer may have; 0 is no limit. A longer one is answered with `answer too long`.
    pub max_answer: usize,
    /// How much work a request may be, or all of an array in sum: how many positions its answer has; 0 is no limit. As soon as it is more, by
    /// what is known, no further batch is asked for, and the answer is `too much work`.
    pub max_work: usize,
    /// How many rounds a request may take, or all of an array together; 0 is no limit. One that needs more is answered with `too many rounds`.
    pub max_rounds: u32,
}

type BatchFunction<'a> = Box<dyn FnMut(&[Key]) -> Result<Rows, BatchFault> + 'a>;
type RoundFunction<'a> = Box<dyn FnMut(&Round) + 'a>;

/// The batch functions by the names of their loaders, and what watches the rounds.
#[derive(Default)]
pub struct Loaders<'a> {
    functions: HashMap<String, BatchFunction<'a>>,
    on_round: Option<RoundFunction<'a>>,
    is_cancelled: Option<Box<dyn FnMut() -> bool + 'a>>,
}

impl<'a> Loaders<'a> {
    /// No batch function.
    pub fn new() -> Self {
        Self::default()
    }

    /// Adds the batch function of a loader, or replaces it. It gets the keys of a batch, and none for a loader by no column.
    pub fn insert(&mut self, loader: impl Into<String>, function: impl FnMut(&[Key]) -> Result<Rows, BatchFault> + 'a) {
        self.functions.insert(loader.into(), Box::new(function));
    }

    /// Has a function called after each round.
    pub fn on_round(&mut self, function: impl FnMut(&Round) + 'a) {
        self.on_round = Some(Box::new(function));
    }

    /// Has a function called before each batch. Where it returns true the answer is cancelled, and no further batch is asked.
    pub fn cancel_when(&mut self, function: impl FnMut() -> bool + 'a) {
        self.is_cancelled = Some(Box::new(function));
    }

    fn ask(&mut self, order: &Order) -> Result<Rows, BatchFault> {
        let name = &order.loader.name;
        match self.functions.get_mut(name) {
            Some(function) => function(&order.keys),
            None => Err(BatchFault::new(format!("no function for loader {name}"))),
        }
    }
}

impl fmt::Debug for Loaders<'_> {
    fn fmt(&self, to: &mut fmt::Formatter<'_>) -> fmt::Result {
        to.debug_set().entries(self.functions.keys()).finish()
    }
}

/// A round that was run, and its batches.
#[derive(Clone, Debug)]
pub struct Round {
    /// The number of the round in its answer, from 1.
    pub round: u64,
    /// The batches, in the order of the loaders.
    pub batches: Vec<Ran>,
}

/// A batch that was run.
#[derive(Clone, Debug)]
pub struct Ran {
    /// The loader.
    pub loader: Arc<Loader>,
    /// The keys.
    pub keys: Vec<Key>,
    /// How long its function ran.
    pub time: Duration,
    /// Why it failed as a whole, if it did.
    pub failed: Option<String>,
}

/// A batch that is to be asked for.
#[derive(Clone, Debug)]
pub struct Order {
    number: usize,
    /// The loader to ask.
    pub loader: Arc<Loader>,
    /// The keys to ask for. For a loader by no column there are none, and all rows are wanted.
    pub keys: Vec<Key>,
}

/// A batch that a client asked for.
#[derive(Clone, Debug, PartialEq, Eq)]
pub struct Batch {
    /// The round, from 1, counted since the client was made or started again.
    pub round: u32,
    /// Whether the replies were stored; else they are out, or were lost.
    pub stored: bool,
    /// The keys.
    pub keys: Vec<Key>,
}

/// How far a request or a load is.
#[derive(Clone, Copy, Debug, PartialEq, Eq)]
pub enum Progress {
    /// There is an answer, or what was to be loaded is.
    Done,
    /// A round of orders is out.
    Round,
    /// An order of the round has no reply yet.
    Waiting,
}

/// A schema with its bindings. Threads share it: a handle of the library is in one call at a time, which a lock sees to. Only the making of a
/// client or of queries takes that lock, so no answer waits until another is done.
pub struct Server {
    pool: Arc<Pool>,
    loaders: Arc<[Arc<Loader>]>,
}

/// What a server shares with its clients: its handle, and the queries that no call uses. Queries keep what requests ask, for those that come again.
/// They are lent to the call that begins a request, so there are at most as many as calls that began at the same time.
struct Pool {
    server: Mutex<Handle>,
    queries: Mutex<Vec<Handle>>,
}

impl Pool {
    fn take(&self) -> Result<Handle, Error> {
        // not matched on, which would hold the lock
        let kept = locked(&self.queries).pop();
        if let Some(queries) = kept {
            return Ok(queries);
        }
        let mut made = Handle::empty();
        went_well(locked(&self.server).queries(&mut made)).map(|_| made)
    }

    fn give(&self, queries: Handle) {
        locked(&self.queries).push(queries);
    }
}

/// What a lock guards. No call that it guards leaves it half done, so a panic elsewhere doesn't spoil it.
fn locked<T>(lock: &Mutex<T>) -> MutexGuard<'_, T> {
    lock.lock().unwrap_or_else(PoisonError::into_inner)
}

impl Server {
    /// Reads a schema and its bindings.
    ///
    /// # Errors
    ///
    /// [`Error::Schema`] where they are refused.
    pub fn new(schema: &str, bindings: &str) -> Result<Self, Error> {
        let (mut handle, mut fault) = (Handle::empty(), calls::Fault::default());
        let code = handle.open(schema.as_bytes(), bindings.as_bytes(), &mut fault);
        if code == calls::BAD_SCHEMA {
            let reason = calls::fault_text(&fault, schema.as_bytes(), bindings.as_bytes());
            let calls::Fault { number, line, column, in_bindings } = fault;
            return Err(Error::Schema(SchemaFault { number, line, column, in_bindings: in_bindings != 0, reason }));
        }
        went_well(code)?;
        let loaders = read_loaders(&mut handle)?;
        let pool = Pool { server: Mutex::new(handle), queries: Mutex::default() };
        Ok(Self { pool: Arc::new(pool), loaders })
    }

    /// The loaders of the bindings.
    pub fn loaders(&self) -> &[Arc<Loader>] {
        &self.loaders
    }

    /// The text of the response to a request, which is JSON. Nothing is known at first but what its batches return.
    ///
    /// # Errors
    ///
    /// [`Error::NoLoader`] where the bindings don't have a loader that is named, [`Error::Cancelled`] where it was cancelled, and
    /// [`Error::Refused`] for a limit that is too large or where memory runs out.
    pub fn answer_text(&self, request: &Request<'_>, loaders: &mut Loaders<'_>, options: &Options) -> Result<String, Error> {
        self.client(options)?.answer_text(request, loaders)
    }

    /// A client, which knows nothing.
    ///
    /// # Errors
    ///
    /// As those of [`Server::answer_text`].
    pub fn client(&self, options: &Options) -> Result<Client, Error> {
        let (limits, mut handle) = (self.limits(options)?, Handle::empty());
        went_well(locked(&self.pool.server).client(&mut handle, &limits))?;
        if options.max_answer > 0 {
            went_well(handle.limit_answers(options.max_answer))?;
        }
        if options.max_work > 0 {
            went_well(handle.limit_work(options.max_work))?;
        }
        if options.max_rounds > 0 {
            went_well(handle.limit_rounds(options.max_rounds))?;
        }
        Ok(Client { handle, pool: Arc::clone(&self.pool), loaders: Arc::clone(&self.loaders) })
    }

    /// How many keys a batch of each loader may have.
    fn limits(&self, options: &Options) -> Result<Vec<u32>, Error> {
        let mut limits = vec![options.max_batch; self.loaders.len()];
        for (name, limit) in &options.max_batch_of {
            limits[number_of(&self.loaders, name)?] = *limit;
        }
        Ok(limits)
    }
}

impl fmt::Debug for Server {
    fn fmt(&self, to: &mut fmt::Formatter<'_>) -> fmt::Result {
        to.debug_struct("Server").field("loaders", &self.loaders).finish_non_exhaustive()
    }
}

fn read_loaders(handle: &mut Handle) -> Result<Arc<[Arc<Loader>]>, Error> {
    let mut sizes = calls::LoaderSizes::default();
    went_well(handle.loaders_sizes(&mut sizes))?;
    let mut kinds = vec![0; sizes.loaders];
    let mut texts = Texts::of_sizes(4 * sizes.loaders, sizes.bytes);
    went_well(handle.loaders(&mut kinds, &mut texts))?;
    let mut texts = texts.iter().map(str::to_owned);
    let mut text = || texts.next().expect("four texts for each loader");
    let loaders = kinds.into_iter().map(|kind| {
        let (name, table, mut columns) = (text(), text(), vec![text(), text()]);
        columns.truncate(kind as usize % 4);
        Arc::new(Loader { name, table, columns, folds: kind >= 4 })
    });
    Ok(loaders.collect())
}

fn number_of(loaders: &[Arc<Loader>], name: &str) -> Result<usize, Error> {
    loaders.iter().position(|loader| loader.name == name).ok_or_else(|| Error::NoLoader(name.to_owned()))
}

/// A memory of what the loaders returned. It answers one request at a time, or loads keys.
///
/// [`Client::answer_text`] and [`Client::load_many`] run the rounds. A host that runs them itself calls [`Client::begin`] or
/// [`Client::begin_load`], and then [`Client::next`] up to [`Progress::Done`]; where that returns [`Progress::Round`], it takes the orders, and calls [`Client::reply`] or [`Client::fail`] for each
/// of these, in any order.
pub struct Client {
    handle: Handle,
    pool: Arc<Pool>,
    loaders: Arc<[Arc<Loader>]>,
}

impl Client {
    /// The text of the response to a request, which is JSON. Keys that are known aren't asked for.
    ///
    /// A panic of a batch function goes through. Then the request is still being answered, up to [`Client::cancel`].
    ///
    /// # Errors
    ///
    /// As those of [`Server::answer_text`].
    pub fn answer_text(&mut self, request: &Request<'_>, loaders: &mut Loaders<'_>) -> Result<String, Error> {
        self.check(loaders)?;
        self.begin(request)?;
        self.run_rounds(loaders)?;
        self.text()
    }

    /// What is known of each key of a loader, in order. Keys that aren't known are asked for in one round, of equal keys only the first.
    ///
    /// # Errors
    ///
    /// As those of [`Server::answer_text`], and [`Error::Misfit`] of a key.
    pub fn load_many<K: Into<Key>>(
        &mut self,
        loader: &str,
        keys: impl IntoIterator<Item = K>,
        loaders: &mut Loaders<'_>,
    ) -> Result<Vec<Loaded>, Error> {
        self.check(loaders)?;
        self.begin_load(loader, keys)?;
        self.run_rounds(loaders)?;
        self.loaded()
    }

    fn check(&self, loaders: &Loaders<'_>) -> Result<(), Error> {
        loaders.functions.keys().try_for_each(|name| number_of(&self.loaders, name).map(drop))
    }

    /// Runs the rounds of what was begun, and gives it up where that fails.
    fn run_rounds(&mut self, loaders: &mut Loaders<'_>) -> Result<(), Error> {
        let done = self.try_rounds(loaders);
        if done.is_err() {
            // it is refused where the library has given the request up by itself
            let _ = self.cancel();
        }
        done
    }

    fn try_rounds(&mut self, loaders: &mut Loaders<'_>) -> Result<(), Error> {
        let mut round = 0;
        while self.next()? == Progress::Round {
            round += 1;
            let orders = self.orders()?;
            let batches = orders.into_iter().map(|order| self.run(order, loaders)).collect::<Result<_, _>>()?;
            if let Some(on_round) = &mut loaders.on_round {
                on_round(&Round { round, batches });
            }
        }
        Ok(())
    }

    fn run(&mut self, order: Order, loaders: &mut Loaders<'_>) -> Result<Ran, Error> {
        if loaders.is_cancelled.as_mut().is_some_and(|is_cancelled| is_cancelled()) {
            return Err(Error::Cancelled);
        }
        let start = Instant::now();
        let replied = loaders.ask(&order);
        let time = start.elapsed();
        let failed = match replied.map(|rows| self.reply(&order, rows)) {
            Ok(Err(Error::Misfit(text))) => Some(text),
            Ok(done) => done.map(|()| None)?,
            Err(fault) => Some(fault.to_string()),
        };
        if let Some(text) = &failed {
            self.fail(&order, text)?;
        }
        Ok(Ran { loader: order.loader, keys: order.keys, time, failed })
    }

    /// Begins the answer to a request.
    ///
    /// # Errors
    ///
    /// [`Error::Refused`] where a request is being answered.
    pub fn begin(&mut self, request: &Request<'_>) -> Result<(), Error> {
        let mut queries = self.pool.take()?;
        let code = match *request {
            Request::Json(text) => self.handle.begin(&mut queries, text),
            Request::Query { query, operation_name, variables } => {
                self.handle.begin_request(&mut queries, query, operation_name.unwrap_or_default(), variables.unwrap_or_default())
            }
        };
        self.pool.give(queries);
        went_well(code).map(drop)
    }

    /// Begins to load keys of a loader.
    ///
    /// # Errors
    ///
    /// [`Error::NoLoader`], [`Error::Misfit`] of a key, and [`Error::Refused`] where a request is being answered or keys are loaded.
    pub fn begin_load<K: Into<Key>>(&mut self, loader: &str, keys: impl IntoIterator<Item = K>) -> Result<(), Error> {
        let number = number_of(&self.loaders, loader)?;
        let keys: Vec<_> = keys.into_iter().map(Into::into).collect();
        let texts = rows::flat_keys(&self.loaders[number], &keys).map_err(Error::Misfit)?;
        let lengths = vec![self.loaders[number].columns.len() as u32; keys.len()];
        went_well(self.handle.begin_load(number, &lengths, &texts)).map(drop)
    }

    /// What was loaded last for each key, in order.
    ///
    /// # Errors
    ///
    /// [`Error::Refused`] where there is nothing, or a call has changed the client since.
    pub fn loaded(&mut self) -> Result<Vec<Loaded>, Error> {
        let mut sizes = LoadSizes::default();
        went_well(self.handle.load_sizes(&mut sizes))?;
        let mut outcomes = Outcomes::of_sizes(&sizes);
        went_well(self.handle.loaded(&mut outcomes))?;
        Ok(rows::loaded_of(&outcomes))
    }

    /// Goes on.
    ///
    /// # Errors
    ///
    /// [`Error::Refused`] where no request is being answered, and where memory ran out: then the request is given up.
    #[expect(clippy::should_implement_trait, reason = "the library's call has this name, and a client is no iterator")]
    pub fn next(&mut self) -> Result<Progress, Error> {
        went_well(self.handle.next()).map(|code| match code {
            calls::ROUND => Progress::Round,
            calls::WAITING => Progress::Waiting,
            _ => Progress::Done,
        })
    }

    /// The orders of the round that is out, which may be asked for at the same time.
    ///
    /// # Errors
    ///
    /// [`Error::Refused`] where no round is out.
    pub fn orders(&mut self) -> Result<Vec<Order>, Error> {
        let sizes = self.sizes()?;
        let mut loaders = vec![0; sizes.orders];
        let mut lists = KeyLists::of_sizes(sizes.orders, sizes.keys, sizes.texts, sizes.bytes);
        went_well(self.handle.orders(&mut loaders, &mut lists))?;
        let numbered = loaders.into_iter().zip(rows::keys_of(&lists)).enumerate();
        let orders = numbered.map(|(number, (loader, keys))| Order { number, loader: Arc::clone(&self.loaders[loader as usize]), keys });
        Ok(orders.collect())
    }

    /// Takes the rows for an order.
    ///
    /// # Errors
    ///
    /// [`Error::Misfit`] where they don't fit the order, which waits as before, and [`Error::Refused`] where it isn't out or has a reply.
    pub fn reply(&mut self, order: &Order, rows: Rows) -> Result<(), Error> {
        let reply = rows.into_reply(&order.loader, &order.keys).map_err(Error::Misfit)?;
        let code = match self.handle.take_rows(order.number, &reply) {
            calls::NO_KEY_COLUMN | calls::NOT_ASKED => {
                let rest = rows::without_casts(&order.loader, &order.keys, &reply).map_err(Error::Misfit)?;
                self.handle.take_rows(order.number, &rest)
            }
            code => code,
        };
        went_well(code).map(drop)
    }

    /// Takes it that the batch of an order failed as a whole.
    ///
    /// # Errors
    ///
    /// [`Error::Refused`] where the order isn't out or has a reply.
    pub fn fail(&mut self, order: &Order, text: &str) -> Result<(), Error> {
        went_well(self.handle.take_failed(order.number, text)).map(drop)
    }

    /// The text of the response to the request that was answered last.
    ///
    /// # Errors
    ///
    /// [`Error::Refused`] where there is none, or a call has changed the client since.
    pub fn text(&mut self) -> Result<String, Error> {
        let mut bytes = vec![0; self.sizes()?.answer];
        went_well(self.handle.answer(&mut bytes))?;
        Ok(String::from_utf8(bytes).expect("the library's texts are UTF-8"))
    }

    /// Gives up the request that is being answered, or the keys that are loaded. The finished rounds stay known.
    ///
    /// # Errors
    ///
    /// [`Error::Refused`] where no request is being answered.
    pub fn cancel(&mut self) -> Result<(), Error> {
        went_well(self.handle.cancel()).map(drop)
    }

    /// How many rounds the answer took.
    ///
    /// # Errors
    ///
    /// [`Error::Refused`], which a client that was made never gives.
    pub fn rounds(&mut self) -> Result<u64, Error> {
        Ok(self.sizes()?.rounds)
    }

    /// Knows these rows for a key, unless something is known of it. Returns whether they were added.
    ///
    /// # Errors
    ///
    /// [`Error::NoLoader`], [`Error::Misfit`], and [`Error::Refused`] where a request is being answered.
    pub fn prime(&mut self, loader: &str, key: impl Into<Key>, rows: Rows) -> Result<bool, Error> {
        let (number, keys) = (number_of(&self.loaders, loader)?, [key.into()]);
        let texts = rows::flat_keys(&self.loaders[number], &keys).map_err(Error::Misfit)?;
        let mut reply = rows.into_reply(&self.loaders[number], &keys).map_err(Error::Misfit)?;
        if reply.is_keyed {
            reply = rows::without_casts(&self.loaders[number], &keys, &reply).map_err(Error::Misfit)?;
            reply.rows[0] = if reply.faults.is_empty() { reply.rows[0] } else { calls::KEY_FAULT };
        }
        let mut primed = 0;
        went_well(self.handle.prime(number, &texts, &reply, &mut primed))?;
        Ok(primed != 0)
    }

    /// Forgets a key. Returns whether something was known of it.
    ///
    /// # Errors
    ///
    /// [`Error::NoLoader`], [`Error::Misfit`] of a key, and [`Error::Refused`] where a request is being answered.
    pub fn clear(&mut self, loader: &str, key: impl Into<Key>) -> Result<bool, Error> {
        let number = number_of(&self.loaders, loader)?;
        let texts = key.into().flat(&self.loaders[number]).map_err(Error::Misfit)?;
        let mut was_known = 0;
        went_well(self.handle.clear(number, &texts, &mut was_known))?;
        Ok(was_known != 0)
    }

    /// Forgets all keys of a loader.
    ///
    /// # Errors
    ///
    /// As those of [`Client::clear`].
    pub fn clear_all(&mut self, loader: &str) -> Result<(), Error> {
        let number = number_of(&self.loaders, loader)?;
        went_well(self.handle.clear_all(number)).map(drop)
    }

    /// Forgets all keys, logs and rounds.
    ///
    /// # Errors
    ///
    /// [`Error::Refused`] where a request is being answered.
    pub fn restart(&mut self) -> Result<(), Error> {
        went_well(self.handle.restart()).map(drop)
    }

    /// The batches that a loader was asked for since the client was made or started again.
    ///
    /// # Errors
    ///
    /// As those of [`Client::clear`].
    pub fn log(&mut self, loader: &str) -> Result<Vec<Batch>, Error> {
        let number = number_of(&self.loaders, loader)?;
        let mut sizes = LogSizes::default();
        went_well(self.handle.log_sizes(number, &mut sizes))?;
        let (mut rounds, mut stored) = (vec![0; sizes.batches], vec![0; sizes.batches]);
        let mut lists = KeyLists::of_sizes(sizes.batches, sizes.keys, sizes.texts, sizes.bytes);
        went_well(self.handle.log(number, &mut rounds, &mut stored, &mut lists))?;
        let told = rounds.into_iter().zip(stored).zip(rows::keys_of(&lists));
        Ok(told.map(|((round, stored), keys)| Batch { round, stored: stored != 0, keys }).collect())
    }

    fn sizes(&mut self) -> Result<Sizes, Error> {
        let mut sizes = Sizes::default();
        went_well(self.handle.sizes(&mut sizes))?;
        Ok(sizes)
    }
}

impl fmt::Debug for Client {
    fn fmt(&self, to: &mut fmt::Formatter<'_>) -> fmt::Result {
        to.debug_struct("Client").field("loaders", &self.loaders).finish_non_exhaustive()
    }
}
