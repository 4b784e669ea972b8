//! The world of `examples/` over its CSV tables, as `query_cli` serves it.
#![allow(dead_code, reason = "not every test needs all of it")]

use rudzkvano::{Key, Loader, Loaders, Row, Rows, Server};
use std::collections::HashMap;
use std::fs;
use std::path::{Path, PathBuf};

pub fn repository() -> PathBuf {
    Path::new(env!("CARGO_MANIFEST_DIR")).join("../..")
}

pub fn read(path: &str) -> String {
    fs::read_to_string(repository().join("examples").join(path)).unwrap_or_else(|error| panic!("{path}: {error}"))
}

pub fn lines(path: &str) -> Vec<String> {
    read(path).lines().map(str::to_owned).collect()
}

#[derive(Clone)]
pub struct Table {
    pub columns: Vec<String>,
    pub rows: Vec<Row>,
}

impl Table {
    /// The tables of `examples/` have no quotes.
    fn read(path: &str) -> Self {
        let mut lines = lines(path).into_iter();
        let columns = lines.next().expect("a header").split(',').map(str::to_owned).collect();
        let rows = lines.map(|line| line.split(',').map(|field| Some(field.to_owned()).filter(|field| !field.is_empty())).collect());
        Self { columns, rows: rows.collect() }
    }

    /// The rows of a key. A null column equals no key.
    pub fn rows_of(&self, loader: &Loader, key: &Key) -> Vec<Row> {
        let texts = match key {
            Key::All => vec![],
            Key::One(text) => vec![text],
            Key::Pair(first, second) => vec![first, second],
        };
        let place = |name: &String| self.columns.iter().position(|column| column == name).expect("the column is there");
        let wanted: Vec<_> = loader.columns.iter().map(place).zip(texts).collect();
        let same = |found: &str, text: &str| if loader.folds { found.eq_ignore_ascii_case(text) } else { found == text };
        let has_key = |row: &&Row| wanted.iter().all(|(place, text)| row[*place].as_deref().is_some_and(|found| same(found, text)));
        self.rows.iter().filter(has_key).cloned().collect()
    }

    /// The rows for some keys: aligned with them, or in the order of the table.
    pub fn ask(&self, loader: &Loader, keys: &[Key], aligned: bool) -> Rows {
        if loader.columns.is_empty() {
            return Rows::grouped(&self.columns, self.rows.clone());
        }
        let items = keys.iter().map(|key| self.rows_of(loader, key));
        if aligned {
            Rows::aligned(&self.columns, items)
        } else {
            let mut rows: Vec<_> = items.flatten().collect();
            rows.sort_by_key(|row| self.rows.iter().position(|other| other == row));
            Rows::grouped(&self.columns, rows)
        }
    }
}

pub struct World {
    pub server: Server,
    pub tables: HashMap<String, Table>,
    pub requests: Vec<String>,
    pub answers: Vec<String>,
}

impl World {
    /// The world of a folder: the empty one is `examples/` itself.
    pub fn read(folder: &str) -> Self {
        let server = Server::new(&read(&format!("{folder}schema.graphql")), &read(&format!("{folder}bindings.txt"))).expect("a server");
        let paths = ["users.csv", "posts.csv", "named.csv", "likes.csv", "votes/votes.csv"];
        let name = |path: &str| Path::new(path).file_stem().and_then(|name| name.to_str()).expect("a name").to_owned();
        let tables = paths.iter().map(|path| (name(path), Table::read(path))).collect();
        let (requests, answers) = (lines(&format!("{folder}requests.jsonl")), lines(&format!("{folder}answers.jsonl")));
        assert_eq!(requests.len(), answers.len());
        Self { server, tables, requests, answers }
    }

    /// A batch function for each loader, which first waits as it is told.
    pub fn loaders(&self, aligned: bool, wait: impl Fn() + Copy + 'static) -> Loaders<'_> {
        let mut loaders = Loaders::new();
        for loader in self.server.loaders() {
            let table = &self.tables[&loader.table];
            loaders.insert(&loader.name, move |keys| {
                wait();
                Ok(table.ask(loader, keys, aligned))
            });
        }
        loaders
    }
}
