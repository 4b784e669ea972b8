//! No memory is left behind. `RUDZKVANO_REQUESTS` is how many requests are answered, 10,000 by default.

mod common;

use common::World;
use rudzkvano::{BatchFault, Client, Error, Options, Request};
use std::{env, fs};

/// The memory of this process, in bytes.
fn resident() -> usize {
    let pages = fs::read_to_string("/proc/self/statm").expect("Linux tells it");
    4096 * pages.split(' ').nth(1).and_then(|pages| pages.parse::<usize>().ok()).expect("a number of pages")
}

/// Answers a request of many: by the server, by a client of its own, cancelled, or failed.
fn answer(world: &World, number: usize) {
    let mut loaders = world.loaders(number % 3 == 0, || ());
    let place = number % world.requests.len();
    let (request, wanted) = (Request::Json(world.requests[place].as_bytes()), Ok(world.answers[place].clone()));
    match number % 8 {
        0 => {
            let client = world.server.client(&Options::default());
            assert_eq!(client.and_then(|mut client| client.answer_text(&request, &mut loaders)), wanted);
        }
        1 => {
            loaders.cancel_when(|| true);
            let answer = world.server.answer_text(&Request::query("{users{id}}"), &mut loaders, &Options::default());
            assert_eq!(answer, Err(Error::Cancelled));
        }
        2 => {
            loaders.insert("allUsers", |_| Err(BatchFault::new("down")));
            let answer = world.server.answer_text(&Request::query("{users{id}}"), &mut loaders, &Options::default());
            assert!(answer.is_ok_and(|text| text.contains("down")));
        }
        _ => assert_eq!(world.server.answer_text(&request, &mut loaders, &Options::default()), wanted),
    }
}

/// Answers a query that wasn't asked before: by the server, or by one of some clients, each with other limits.
fn answer_new(world: &World, clients: &mut [Client], number: usize) {
    let mut loaders = world.loaders(true, || ());
    let (query, place) = (format!("{{a{number}:user(id:1){{name}}}}"), number / 2 % clients.len());
    let answer = match number % 2 {
        0 => world.server.answer_text(&Request::query(&query), &mut loaders, &limited(place)),
        _ => clients[place].answer_text(&Request::query(&query), &mut loaders),
    };
    assert_eq!(answer, Ok(format!(r#"{{"data":{{"a{number}":{{"name":"Ada"}}}}}}"#)));
}

fn limited(place: usize) -> Options {
    Options { max_batch: place as u32, ..Options::default() }
}

/// After some requests others take no more memory.
fn stays_flat(what: &str, first: usize, mut answer: impl FnMut(usize)) {
    let count: usize = env::var("RUDZKVANO_REQUESTS").map_or(10_000, |count| count.parse().expect("a number"));
    (0..first).for_each(&mut answer);
    let before = resident();
    (first..first + count).for_each(answer);
    let grown = resident().saturating_sub(before);
    println!("{count} {what}: {} KiB, grown by {} KiB", before / 1024, grown / 1024);
    assert!(grown < 1 << 20, "grown by {grown} bytes");
}

#[test]
fn memory_stays_flat() {
    let mut world = World::read("");
    stays_flat("requests", 2000, |number| {
        if number % 1000 == 999 {
            world = World::read("");
        }
        answer(&world, number);
    });
    let mut clients: Vec<_> = (0..20).map(|place| world.server.client(&limited(place)).expect("a client")).collect();
    stays_flat("new requests", 5000, |number| answer_new(&world, &mut clients, number));
}
