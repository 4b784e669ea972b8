//! What goes wrong is told, and the rest goes on.

mod common;

use common::{read, repository, World};
use rudzkvano::{BatchFault, Client, Error, Item, Key, Loaded, Loaders, Options, Progress, Request, Row, Rows, SchemaFault, Server};
use std::panic::{self, AssertUnwindSafe};
use std::{fs, io};

const QUERY: &str = "{user(id:1){name} users{id}}";

fn row(values: &[&str]) -> Row {
    values.iter().map(|&value| Some(value.to_owned())).collect()
}

/// The answer to `QUERY` where the user failed.
fn failed(message: &str) -> String {
    let error = format!(r#"{{"message":"{message}","locations":[{{"line":1,"column":2}}],"path":["user"]}}"#);
    format!(r#"{{"errors":[{error}],"data":{{"user":null,"users":[{{"id":"1"}},{{"id":"2"}},{{"id":"3"}},{{"id":"4"}}]}}}}"#)
}

fn client(world: &World) -> Client {
    world.server.client(&Options::default()).expect("a client")
}

/// The name of the code of a refusal.
fn refusal<T: std::fmt::Debug>(result: Result<T, Error>) -> String {
    match result {
        Err(Error::Refused { name, .. }) => name,
        other => panic!("not refused: {other:?}"),
    }
}

#[test]
fn a_batch_that_fails_is_a_fault_of_its_keys_alone() {
    let columns = ["id", "name"];
    let cases: Vec<(Result<Rows, BatchFault>, &str)> = vec![
        (Err(BatchFault::new("down")), "down"),
        (Err(io::Error::other("no network").into()), "no network"),
        (Ok(Rows::aligned(columns, [Item::Fault("gone".to_owned())])), "gone"),
        (Ok(Rows::aligned(columns, [Err::<Row, _>(io::Error::other("locked"))])), "locked"),
        (Ok(Rows::aligned(columns, [None, None::<Row>])), "loader userById: 2 items for 1 keys"),
        (Ok(Rows::aligned(columns, [row(&["1"])])), "loader userById: a row of 1 values for 2 columns"),
        (Ok(Rows::grouped(columns, [row(&["1"])])), "loader userById: a row of 1 values for 2 columns"),
        (Ok(Rows::grouped([""; 0], [vec![]])), "loader userById: a row has no columns"),
        (Ok(Rows::grouped(["name"], [row(&["Ada"])])), "loader userById: its rows have no column id"),
        (Ok(Rows::grouped(columns, [row(&["9", "Eve"])])), "loader userById: row 1 has the key '9' in column id, which wasn't asked for"),
        (Ok(Rows::grouped(columns, [vec![None, None]])), "loader userById: row 1 has the key '' in column id, which wasn't asked for"),
    ];
    let world = World::read("");
    for (reply, message) in cases {
        let mut loaders = world.loaders(true, || ());
        loaders.insert("userById", move |_| reply.clone());
        let answer = world.server.answer_text(&Request::query(QUERY), &mut loaders, &Options::default());
        assert_eq!(answer, Ok(failed(message)));
    }
}

#[test]
fn what_a_database_casts_is_a_fault_of_its_key() {
    let world = World::read("");
    let cases = [
        ("01", "1", Some("loader userById: a row of the key '1' for the key '01'")),
        (" +1.0", "1", Some("loader userById: a row of the key '1' for the key ' +1.0'")),
        ("ADA ", "Ada", Some("loader userById: a row of the key 'Ada' for the key 'ADA '")),
        ("1.20E2", "120", Some("loader userById: a row of the key '120' for the key '1.20E2'")),
        ("-0", "0", Some("loader userById: a row of the key '0' for the key '-0'")),
        ("1e", "1", None),
        ("-1", "1", None),
        (".", "0", None),
    ];
    for (key, id, fault) in cases {
        let mut loaders = Loaders::new();
        loaders.insert("userById", move |_| Ok(Rows::grouped(["id", "name"], [row(&[id, "Eve"]), row(&["2", "Bob"])])));
        let mut client = client(&world);
        let loaded = client.load_many("userById", [key, "2"], &mut loaders).expect("loaded");
        match (fault, &loaded[..]) {
            (Some(text), [Loaded::KeyFault(found), Loaded::Rows(rows)]) => assert_eq!((&**found, rows.len()), (text, 1)),
            (None, [Loaded::BatchFault(found), _]) => {
                assert_eq!(*found, format!("loader userById: row 1 has the key '{id}' in column id, which wasn't asked for"));
            }
            _ => panic!("{key}: {loaded:?}"),
        }
    }
}

#[test]
fn rows_of_keys_that_were_cast_are_left_out() {
    let world = World::read("");
    let mut loaders = Loaders::new();
    loaders.insert("userById", |keys| {
        let numbers = keys.iter().map(|key| match key {
            Key::One(text) => text.parse::<u32>().expect("a number"),
            other => panic!("{other:?}"),
        });
        Ok(Rows::grouped(["id", "name"], numbers.flat_map(|id| ["a", "b"].map(|name| row(&[&id.to_string(), &format!("{name}{id}")])))))
    });
    let keys: Vec<_> = (0..1000).map(|id| if id % 2 == 0 { format!("{id}") } else { format!("{id:05}") }).collect();
    let mut client = client(&world);
    let loaded = client.load_many("userById", keys.iter().map(String::as_str), &mut loaders).expect("loaded");
    for (id, (key, loaded)) in keys.iter().zip(loaded).enumerate() {
        match loaded {
            Loaded::Rows(rows) => {
                assert_eq!(rows.iter().map(|row| row.get("name")).collect::<Vec<_>>(), [Some(&*format!("a{id}")), Some(&*format!("b{id}"))])
            }
            fault => assert_eq!(fault, Loaded::KeyFault(format!("loader userById: a row of the key '{id}' for the key '{key}'"))),
        }
    }
    assert_eq!(client.prime("userById", "1.0", Rows::grouped(["id"], [row(&["1"])])), Ok(true));
    let loaded = client.load_many("userById", ["1.0"], &mut loaders).expect("loaded");
    assert_eq!(loaded, [Loaded::KeyFault("loader userById: a row of the key '1' for the key '1.0'".to_owned())]);
}

#[test]
fn a_loader_without_a_function_fails_and_an_unknown_one_is_refused() {
    let world = World::read("");
    let mut loaders = Loaders::new();
    let users = &world.tables["users"];
    loaders.insert("allUsers", |keys| {
        assert!(keys.is_empty());
        Ok(Rows::grouped(&users.columns, users.rows.clone()))
    });
    let answer = |options: &Options, loaders: &mut Loaders<'_>| world.server.answer_text(&Request::query(QUERY), loaders, options);
    assert_eq!(answer(&Options::default(), &mut loaders), Ok(failed("no function for loader userById")));
    let unknown = Options { max_batch_of: [("userByID".to_owned(), 5)].into(), ..Options::default() };
    assert_eq!(answer(&unknown, &mut loaders), Err(Error::NoLoader("userByID".to_owned())));
    loaders.insert("userByID", |_| Err(BatchFault::new("not asked")));
    assert_eq!(answer(&Options::default(), &mut loaders), Err(Error::NoLoader("userByID".to_owned())));
    assert_eq!(answer(&unknown, &mut loaders).unwrap_err().to_string(), "the bindings have no loader userByID");
}

#[test]
fn the_linked_library_goes_with_the_header() {
    let header = fs::read_to_string(repository().join("clients/c/rudzkvano.h")).expect("the header");
    let told = header.lines().find_map(|line| line.strip_prefix("#define RZ_VERSION ")?.strip_suffix('u')).expect("its version");
    let version: u32 = told.parse().expect("a number");
    let (major, minor, patch) = rudzkvano::library_version();
    let linked = major << 16 | minor << 8 | patch;
    assert!(
        linked >> 16 == version >> 16 && linked >= version,
        "the linked library is version {major}.{minor}.{patch}, and the header {told}"
    );
}

#[test]
fn numbers_that_json_lacks_are_no_variables() {
    let world = World::read("");
    for value in ["NaN", "Infinity", "-Infinity", "1e999"] {
        let variables = format!(r#"{{"i":{value}}}"#);
        let request = Request::Query { query: "query($i:ID!){user(id:$i){name}}", operation_name: None, variables: Some(&variables) };
        let answer = world.server.answer_text(&request, &mut Loaders::new(), &Options::default());
        assert_eq!(answer.as_deref(), Ok(r#"{"errors":[{"message":"not a request"}]}"#));
    }
}

#[test]
fn no_rows_need_no_columns() {
    let world = World::read("");
    let mut loaders = Loaders::new();
    loaders.insert("userById", |_| Ok(Rows::grouped([""; 0], [])));
    let answer = world.server.answer_text(&Request::query("{user(id:1){name}}"), &mut loaders, &Options::default());
    assert_eq!(answer.as_deref(), Ok(r#"{"data":{"user":null}}"#));
}

#[test]
fn a_schema_is_refused_in_a_sentence() {
    let unescaped = |text: &str| text.replace("\\\\", "\0").replace("\\n", "\n").replace("\\r", "\r").replace('\0', "\\");
    for line in read("../clients/schema_faults.txt").lines() {
        let parts: Vec<_> = line.split('\t').map(unescaped).collect();
        let found = match Server::new(&parts[1], &parts[2]) {
            Ok(_) => String::new(),
            Err(Error::Schema(fault)) => {
                let SchemaFault { number, line, column, in_bindings, reason } = &fault;
                let text = if *in_bindings { "bindings" } else { "schema" };
                assert_eq!(parts[0], format!("S{number} at {text}:{line}:{column}: {reason}"));
                fault.to_string()
            }
            Err(error) => panic!("{error}"),
        };
        assert_eq!(found, parts[0]);
    }
}

#[test]
fn limits_are_kept() {
    let world = World::read("");
    let answer = |options: Options| {
        let mut batches = vec![];
        let mut loaders = world.loaders(true, || ());
        loaders.on_round(|round| batches.extend(round.batches.iter().map(|ran| (round.round, ran.keys.len(), ran.failed.clone()))));
        let answer = world.server.answer_text(&Request::query("{usersByIds(ids:[1,2,3]){best{id}}}"), &mut loaders, &options);
        drop(loaders);
        (answer, batches)
    };
    let (text, batches) = answer(Options { max_batch: 2, ..Options::default() });
    assert_eq!(text.as_deref(), Ok(r#"{"data":{"usersByIds":[{"best":{"id":"2"}},{"best":{"id":"1"}},{"best":null}]}}"#));
    assert_eq!(batches, [(1, 2, None), (1, 1, None)]);
    let by_name = Options { max_batch: 2, max_batch_of: [("userById".to_owned(), 0)].into(), ..Options::default() };
    assert_eq!(answer(by_name).1, [(1, 3, None)]);
    let (text, _) = answer(Options { max_answer: 30, ..Options::default() });
    assert_eq!(text.as_deref(), Ok(r#"{"errors":[{"message":"answer too long"}]}"#));
    assert_eq!(refusal(answer(Options { max_batch: 65_536, ..Options::default() }).0), "RZ_BAD_LIMIT");
}

#[test]
fn work_and_rounds_are_limited() {
    let world = World::read("");
    let answer = |options: Options| {
        let mut batches = 0;
        let mut loaders = world.loaders(true, || ());
        loaders.on_round(|round| batches += round.batches.len());
        let answer = world.server.answer_text(&Request::query("{user(id:1){best{name}}}"), &mut loaders, &options);
        drop(loaders);
        (answer, batches)
    };
    let bob = r#"{"data":{"user":{"best":{"name":"Bob"}}}}"#;
    // at last the positions are the response, the user, the best and the name, and before the best is there, it waits
    let (text, batches) = answer(Options { max_work: 4, max_rounds: 2, ..Options::default() });
    assert_eq!((text.as_deref(), batches), (Ok(bob), 2));
    let (text, batches) = answer(Options { max_work: 2, ..Options::default() });
    assert_eq!((text.as_deref(), batches), (Ok(r#"{"errors":[{"message":"too much work"}]}"#), 1));
    let (text, batches) = answer(Options { max_rounds: 1, ..Options::default() });
    assert_eq!((text.as_deref(), batches), (Ok(r#"{"errors":[{"message":"too many rounds"}]}"#), 1));
}

#[test]
fn a_cancelled_answer_asks_no_further_batch() {
    let world = World::read("");
    let mut client = client(&world);
    let mut loaders = world.loaders(true, || ());
    let mut batches = 0;
    loaders.cancel_when(move || {
        batches += 1;
        batches > 2
    });
    let request = Request::query("{users{posts{author{name}}}}");
    assert_eq!(client.answer_text(&request, &mut loaders), Err(Error::Cancelled));
    assert_eq!(client.log("allUsers").map(|batches| batches.len()), Ok(1));
    assert_eq!(client.log("postsByAuthor").map(|batches| batches[0].stored), Ok(true));
    assert_eq!(client.log("userById").map(|batches| batches[0].stored), Ok(false));
    // what the finished rounds returned is known: one more batch is enough
    let mut loaders = world.loaders(true, || ());
    let number = world.requests.iter().position(|line| line == r#"{"query":"{users{posts{author{name}}}}"}"#).expect("the line");
    assert_eq!(client.answer_text(&request, &mut loaders).as_ref(), Ok(&world.answers[number]));
    assert_eq!(client.rounds(), Ok(1));
}

#[test]
fn a_client_keeps_what_it_knows() {
    let world = World::read("");
    let mut client = client(&world);
    let mut loaders = world.loaders(true, || ());
    let eve = || Rows::grouped(["id", "name"], [row(&["1", "Eve"])]);
    let request = Request::query("{user(id:1){name}}");
    assert_eq!(client.prime("userById", "1", eve()), Ok(true));
    assert_eq!(client.prime("userById", "1", eve()), Ok(false));
    assert_eq!(client.answer_text(&request, &mut loaders).as_deref(), Ok(r#"{"data":{"user":{"name":"Eve"}}}"#));
    assert_eq!((client.clear("userById", "1"), client.clear("userById", "1")), (Ok(true), Ok(false)));
    assert_eq!(client.answer_text(&request, &mut loaders).as_deref(), Ok(r#"{"data":{"user":{"name":"Ada"}}}"#));
    let keys: Vec<_> = client.log("userById").expect("a log").into_iter().map(|batch| (batch.round, batch.stored, batch.keys)).collect();
    assert_eq!(keys, [(1, true, vec![Key::from("1")])]);
    client.clear_all("userById").expect("cleared");
    assert_eq!(client.prime("allUsers", Key::All, Rows::grouped(["id"], [])), Ok(true));
    assert_eq!(client.answer_text(&Request::query("{users{id}}"), &mut loaders).as_deref(), Ok(r#"{"data":{"users":[]}}"#));
    client.restart().expect("restarted");
    assert_eq!(client.log("userById"), Ok(vec![]));
    let misfit = Error::Misfit("loader userById: row 1 has the key '1' in column id, which wasn't asked for".to_owned());
    assert_eq!(client.prime("userById", "2", eve()), Err(misfit));
    assert_eq!(client.clear("nobody", "1"), Err(Error::NoLoader("nobody".to_owned())));
    let misfit = Error::Misfit("loader userById: a key of 2 texts for 1 columns".to_owned());
    assert_eq!(client.clear("userById", ("1", "2")), Err(misfit));
}

#[test]
fn calls_out_of_turn_are_refused() {
    let world = World::read("");
    let mut client = client(&world);
    let request = Request::query("{user(id:1){name}}");
    assert_eq!(
        (refusal(client.next()), refusal(client.text()), refusal(client.cancel())),
        ("RZ_IDLE".into(), "RZ_IDLE".into(), "RZ_IDLE".into())
    );
    client.begin(&request).expect("begun");
    assert_eq!(refusal(client.begin(&request)), "RZ_BUSY");
    assert_eq!(client.next(), Ok(Progress::Round));
    assert_eq!(client.next(), Ok(Progress::Waiting));
    assert_eq!(refusal(client.clear_all("userById")), "RZ_BUSY");
    let orders = client.orders().expect("orders");
    client.fail(&orders[0], "down").expect("failed");
    assert_eq!(refusal(client.fail(&orders[0], "down")), "RZ_REPLIED");
    assert_eq!(client.next(), Ok(Progress::Done));
    let wanted = r#"{"errors":[{"message":"down","locations":[{"line":1,"column":2}],"path":["user"]}],"data":{"user":null}}"#;
    assert_eq!(client.text().as_deref(), Ok(wanted));
    assert_eq!(refusal(client.fail(&orders[0], "down")), "RZ_NO_ORDER");
}

#[test]
fn grouped_rows_keep_their_order_within_a_key_as_its_loader_compares_it() {
    let bindings = read("bindings.txt").replace("userById users by id", "userById users by name fold");
    let server = Server::new(&read("schema.graphql"), &bindings).expect("a server");
    let mut client = server.client(&Options::default()).expect("a client");
    let mut rows = vec![row(&["2", "bob"]), row(&["1", "ADA"]), row(&["3", "Ada"])];
    let load = |client: &mut Client, rows: &[Row]| {
        let mut loaders = Loaders::new();
        loaders.insert("userById", |_| Ok(Rows::grouped(["id", "name"], rows.to_vec())));
        client.load_many("userById", ["aDA", "Bob"], &mut loaders).expect("loaded")
    };
    let ids = |outcome: &Loaded| match outcome {
        Loaded::Rows(rows) => rows.iter().map(|row| row.get("id").unwrap_or_default().to_owned()).collect(),
        fault => vec![format!("{fault:?}")],
    };
    assert_eq!(load(&mut client, &rows).iter().map(ids).collect::<Vec<_>>(), [vec!["1", "3"], vec!["2"]]);
    client.restart().expect("restarted");
    rows.push(row(&["4", "Éva"]));
    let why = "loader userById: row 4 has the key 'Éva' in column name, which wasn't asked for".to_owned();
    assert_eq!(load(&mut client, &rows), [Loaded::BatchFault(why.clone()), Loaded::BatchFault(why)]);
    assert_eq!(client.prime("userById", "ADA", Rows::grouped(["name"], [row(&["aDa"]), row(&["Ada"])])), Ok(true));
}

#[test]
fn grouped_rows_that_are_refused_leave_their_order() {
    let world = World::read("");
    let mut client = client(&world);
    client.begin(&Request::query("{user(id:1){name}}")).expect("begun");
    assert_eq!(client.next(), Ok(Progress::Round));
    let orders = client.orders().expect("orders");
    let refused = [
        (Rows::grouped(["name"], [row(&["Ada"])]), "loader userById: its rows have no column id"),
        (
            Rows::grouped(["name", "id"], [row(&["Ada", "1"]), row(&["Bob", "2"])]),
            "loader userById: row 2 has the key '2' in column id, which wasn't asked for",
        ),
    ];
    for (rows, why) in refused {
        assert_eq!(client.reply(&orders[0], rows), Err(Error::Misfit(why.to_owned())));
        assert_eq!(client.next(), Ok(Progress::Waiting));
    }
    client.reply(&orders[0], Rows::grouped(["name", "id"], [row(&["Ada", "1"])])).expect("taken");
    assert_eq!(client.next(), Ok(Progress::Done));
    assert_eq!(client.text().as_deref(), Ok(r#"{"data":{"user":{"name":"Ada"}}}"#));
}

#[test]
fn a_panic_of_a_batch_function_goes_through() {
    let world = World::read("");
    let answer = || {
        let mut loaders = world.loaders(true, || ());
        loaders.insert("userById", |_| panic::resume_unwind(Box::new("a panic")));
        world.server.answer_text(&Request::query(QUERY), &mut loaders, &Options::default())
    };
    assert!(panic::catch_unwind(AssertUnwindSafe(answer)).is_err());
    let answer =
        world.server.answer_text(&Request::Json(world.requests[0].as_bytes()), &mut world.loaders(true, || ()), &Options::default());
    assert_eq!(answer.as_ref(), Ok(&world.answers[0]));
}
