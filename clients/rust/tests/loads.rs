//! Keys are loaded, over what a client knows.

mod common;

use common::World;
use rudzkvano::{BatchFault, Client, Error, Item, Key, Loaded, Loaders, Options, Progress, Request, Row, Rows};

fn row(values: &[&str]) -> Row {
    values.iter().map(|&value| Some(value.to_owned())).collect()
}

fn client(world: &World, max_batch: u32) -> Client {
    world.server.client(&Options { max_batch, ..Options::default() }).expect("a client")
}

/// The names of the rows of each key, and the faults.
fn names(loaded: &[Loaded]) -> Vec<String> {
    let of_rows =
        |rows: &[_]| rows.iter().map(|row: &rudzkvano::LoadedRow| row.get("name").unwrap_or("null")).collect::<Vec<_>>().join(" ");
    let told = loaded.iter().map(|it| match it {
        Loaded::Rows(rows) => of_rows(rows),
        Loaded::KeyFault(text) => format!("key: {text}"),
        Loaded::BatchFault(text) => format!("batch: {text}"),
    });
    told.collect()
}

/// The rounds and the keys of the batches that the loader `userById` was asked for.
fn asked(client: &mut Client) -> Vec<(u32, Vec<Key>)> {
    client.log("userById").expect("a log").into_iter().map(|batch| (batch.round, batch.keys)).collect()
}

fn refusal<T: std::fmt::Debug>(result: Result<T, Error>) -> String {
    match result {
        Err(Error::Refused { name, .. }) => name,
        other => panic!("not refused: {other:?}"),
    }
}

#[test]
fn keys_that_are_known_are_not_asked_and_equal_keys_once() {
    let world = World::read("");
    let (mut client, mut loaders) = (client(&world, 0), world.loaders(true, || ()));
    client.prime("userById", "1", Rows::aligned(["id", "name", "no"], [vec![Some("1".into()), Some("Eve".into()), None]])).expect("primed");
    let loaded = client.load_many("userById", ["1", "2", "2"], &mut loaders).expect("loaded");
    assert_eq!(names(&loaded), ["Eve", "Bob", "Bob"]);
    let Loaded::Rows(rows) = &loaded[0] else { panic!("no rows") };
    assert_eq!((&*rows[0].columns, rows[0].get("no"), rows[0].get("other")), (&["id", "name", "no"].map(str::to_owned)[..], None, None));
    assert_eq!(asked(&mut client), [(1, vec!["2".into()])]);
    assert_eq!(client.load_many("userById", ["2"], &mut loaders), Ok(loaded[1..2].to_vec()));
    assert_eq!(client.load_many("userById", [""; 0], &mut loaders), Ok(vec![]));
    assert_eq!(names(&client.load_many("userById", ["99"], &mut loaders).expect("loaded")), [""]);
    let answer = client.answer_text(&Request::query("{user(id:2){name}}"), &mut loaders);
    assert_eq!(answer.as_deref(), Ok(r#"{"data":{"user":{"name":"Bob"}}}"#));
    assert_eq!(asked(&mut client).len(), 2);
    assert_eq!(names(&client.load_many("allUsers", [Key::All], &mut loaders).expect("loaded"))[0].split(' ').count(), 4);
}

#[test]
fn a_fault_of_a_key_or_of_a_batch_is_told_and_a_failed_batch_is_asked_again() {
    let (world, mut loaders) = (World::read(""), Loaders::new());
    let mut client = client(&world, 1);
    loaders.insert("userById", |keys| match keys[0].first() {
        "4" => Err(BatchFault::new("down")),
        "3" => Ok(Rows::aligned(["name"], [Item::Fault("gone".to_owned())])),
        id => Ok(Rows::aligned(["name"], [row(&[id])])),
    });
    let wanted = ["1", "key: gone", "batch: down"];
    assert_eq!(names(&client.load_many("userById", ["1", "3", "4"], &mut loaders).expect("loaded")), wanted);
    assert_eq!(names(&client.load_many("userById", ["1", "3", "4"], &mut loaders).expect("loaded")), wanted);
    assert_eq!(asked(&mut client), [(1, vec!["1".into()]), (1, vec!["3".into()]), (1, vec!["4".into()]), (2, vec!["4".into()])]);
}

#[test]
fn loads_that_are_wrong_are_refused() {
    let (world, mut loaders) = (World::read(""), Loaders::new());
    let mut client = client(&world, 0);
    assert_eq!(client.load_many("nosuch", ["1"], &mut loaders), Err(Error::NoLoader("nosuch".to_owned())));
    let misfit = Error::Misfit("loader userById: a key of 2 texts for 1 columns".to_owned());
    assert_eq!(client.load_many("userById", [("1", "2")], &mut loaders), Err(misfit));
    assert_eq!(refusal(client.loaded()), "RZ_IDLE");
    loaders.cancel_when(|| true);
    assert_eq!(client.load_many("userById", ["1"], &mut loaders), Err(Error::Cancelled));
    assert_eq!(refusal(client.next()), "RZ_IDLE");
}

#[test]
fn a_load_by_hand() {
    let world = World::read("");
    let mut client = client(&world, 0);
    client.begin_load("userById", ["7", "8"]).expect("begun");
    assert_eq!(refusal(client.begin_load("userById", ["9"])), "RZ_BUSY");
    assert_eq!(client.next(), Ok(Progress::Round));
    let orders = client.orders().expect("orders");
    assert_eq!(orders[0].keys, ["7".into(), "8".into()]);
    assert_eq!(refusal(client.loaded()), "RZ_IDLE");
    client.reply(&orders[0], Rows::aligned(["name"], [Some(row(&["Eve"])), None])).expect("taken");
    assert_eq!(client.next(), Ok(Progress::Done));
    assert_eq!(names(&client.loaded().expect("loaded")), ["Eve", ""]);
    assert_eq!(refusal(client.text()), "RZ_IDLE");
}
