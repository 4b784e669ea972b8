//! The answers are those that are stored in `examples/`, and those of `query_cli`.

mod common;

use common::{read, repository, World};
use rudzkvano::{Client, Error, Options, Progress, Request};
use std::collections::hash_map::RandomState;
use std::hash::{BuildHasher, Hasher};
use std::process::Command;
use std::time::Duration;
use std::{env, fs, thread};

fn random(below: u64) -> u64 {
    RandomState::new().build_hasher().finish() % below
}

/// Answers by hand. The replies to a round come from a thread each, late and in any order.
fn answer_late(world: &World, client: &mut Client, request: &Request<'_>) -> Result<String, Error> {
    client.begin(request)?;
    while client.next()? == Progress::Round {
        let orders = client.orders()?;
        thread::scope(|scope| {
            let (sender, replies) = std::sync::mpsc::channel();
            for order in &orders {
                let sender = sender.clone();
                scope.spawn(move || {
                    thread::sleep(Duration::from_millis(random(20)));
                    let rows = world.tables[&order.loader.table].ask(&order.loader, &order.keys, random(2) == 0);
                    sender.send((order, rows)).expect("the client waits");
                });
            }
            drop(sender);
            replies.into_iter().try_for_each(|(order, rows)| client.reply(order, rows))
        })?;
    }
    client.text()
}

#[test]
fn examples_are_answered_as_stored() {
    for folder in ["", "votes/"] {
        let world = World::read(folder);
        for (aligned, max_batch) in [(true, 0), (false, 0), (true, 1), (false, 2)] {
            let options = Options { max_batch, ..Options::default() };
            let mut loaders = world.loaders(aligned, || ());
            for (request, wanted) in world.requests.iter().zip(&world.answers) {
                let answer = world.server.answer_text(&Request::Json(request.as_bytes()), &mut loaders, &options);
                assert_eq!(answer.as_ref(), Ok(wanted), "{folder} {request}");
            }
        }
    }
}

#[test]
fn two_hundred_requests_at_the_same_time() {
    let world = &World::read("");
    let wait = || thread::sleep(Duration::from_millis(random(20)));
    thread::scope(|scope| {
        for number in 0..200 {
            let (request, wanted) = world.requests.iter().zip(&world.answers).cycle().nth(number).expect("there are lines");
            let mut client = world.server.client(&Options::default()).expect("a client");
            scope.spawn(move || {
                let request = Request::Json(request.as_bytes());
                let answer = match number % 2 {
                    0 => world.server.answer_text(&request, &mut world.loaders(number % 4 == 0, wait), &Options::default()),
                    _ => answer_late(world, &mut client, &request),
                };
                assert_eq!(answer.as_ref(), Ok(wanted), "{request:?}");
            });
        }
    });
}

/// Each thread begins with another line, and has other limits. Its requests go to the server and to a client in turn.
#[test]
fn threads_that_share_a_server_answer_as_stored() {
    let world = &World::read("");
    thread::scope(|scope| {
        for number in 0..8 {
            let options = Options { max_batch: number, ..Options::default() };
            let mut client = world.server.client(&options).expect("a client");
            scope.spawn(move || {
                let mut loaders = world.loaders(number % 2 == 0, || ());
                let lines = world.requests.iter().zip(&world.answers).cycle().skip(10 * number as usize);
                for (place, (request, wanted)) in lines.take(2000).enumerate() {
                    let line = Request::Json(request.as_bytes());
                    let answer = match place % 2 {
                        0 => world.server.answer_text(&line, &mut loaders, &options),
                        _ => client.answer_text(&line, &mut loaders),
                    };
                    assert_eq!(answer.as_ref(), Ok(wanted), "{request}");
                }
            });
        }
    });
}

#[test]
fn clients_go_on_after_their_server() {
    let world = &World::read("");
    let server = World::read("").server;
    let clients: Vec<_> = (0..3).map(|_| server.client(&Options::default()).expect("a client")).collect();
    drop(server);
    thread::scope(|scope| {
        for mut client in clients {
            scope.spawn(move || {
                for (request, wanted) in world.requests.iter().zip(&world.answers) {
                    let answer = client.answer_text(&Request::Json(request.as_bytes()), &mut world.loaders(true, || ()));
                    assert_eq!(answer.as_ref(), Ok(wanted), "{request}");
                }
            });
        }
    });
}

/// The answers of `query_cli` to a file of lines, or of the host in C over tables in memory; or none where neither is built.
fn answers_of_others(lines: &str) -> Option<String> {
    let out = repository().join("crates");
    let query_cli = env::var_os("RUDZKVANO_QUERY_CLI").map_or(out.join("query_cli/out/query_cli"), Into::into);
    let host = out.join("rudzkvano_c/out/hosts/tables_host");
    let (program, options) = match (query_cli.is_file(), host.is_file()) {
        (true, _) => (query_cli, ["--schema", "--bindings"].map(Some)),
        (_, true) => (host, [None, None]),
        _ => return None,
    };
    let mut command = Command::new(program);
    for (option, file) in options.into_iter().zip(["schema.graphql", "bindings.txt"]) {
        command.args(option).arg(file);
    }
    command.arg(lines).args(["users", "posts", "named", "likes"].map(|name| format!("{name}={name}.csv")));
    let output = command.current_dir(repository().join("examples")).output().expect("it runs");
    Some(String::from_utf8(output.stdout).expect("answers are UTF-8"))
}

#[test]
fn random_lines_are_answered_as_by_query_cli() {
    let script = repository().join("clients/python/random_lines.py");
    let Ok(output) = Command::new("python3").arg(script).args(["2000", "41"]).output() else {
        return println!("left out: random lines want python3");
    };
    assert!(output.status.success());
    let path = format!("{}/random.jsonl", env!("CARGO_TARGET_TMPDIR"));
    fs::write(&path, &output.stdout).expect("a file of lines");
    let Some(wanted) = answers_of_others(&path) else {
        return println!("left out: neither query_cli nor tables_host is built, which answers random lines too");
    };
    let world = World::read("");
    let mut loaders = world.loaders(false, || ());
    let text = String::from_utf8(output.stdout).expect("lines are UTF-8");
    assert_eq!((text.lines().count(), wanted.lines().count()), (2000, 2000));
    for (line, wanted) in text.lines().zip(wanted.lines()) {
        let answer = world.server.answer_text(&Request::Json(line.as_bytes()), &mut loaders, &Options::default());
        assert_eq!(answer.as_deref(), Ok(wanted), "{line}");
    }
}

#[test]
fn a_query_is_answered_by_its_parts() {
    let world = World::read("");
    let query = "query A($i: ID!){user(id:$i){name}} query B{user(id:9){name}}";
    let cases = [
        (Some("A"), Some(r#"{"i":1}"#), r#"{"data":{"user":{"name":"Ada"}}}"#),
        (Some("B"), None, r#"{"data":{"user":null}}"#),
        (Some("A"), Some(r#"{"i":[]}"#), r#"{"errors":[{"message":"bad value for variable $i"}]}"#),
        (Some("C"), None, r#"{"errors":[{"message":"no operation named C"}]}"#),
        (None, None, r#"{"errors":[{"message":"operation name needed"}]}"#),
    ];
    for (operation_name, variables, wanted) in cases {
        let request = Request::Query { query, operation_name, variables };
        let answer = world.server.answer_text(&request, &mut world.loaders(true, || ()), &Options::default());
        assert_eq!(answer.as_deref(), Ok(wanted));
    }
}

#[test]
fn a_key_is_asked_without_its_case_where_the_loader_folds() {
    let bindings = read("bindings.txt").replace("userById users by id", "userById users by name fold");
    let server = rudzkvano::Server::new(&read("schema.graphql"), &bindings).expect("a server");
    let mut loaders = rudzkvano::Loaders::new();
    loaders.insert("userById", |_| Ok(rudzkvano::Rows::grouped(["name"], [vec![Some("Ada".to_owned())]])));
    let answer = server.answer_text(&Request::query(r#"{user(id:"aDA"){name}}"#), &mut loaders, &Options::default());
    assert_eq!(answer.as_deref(), Ok(r#"{"data":{"user":{"name":"Ada"}}}"#));
}
