//! Answers a query by hand: the batches of each round run at the same time, on a thread each.
//!
//!     cargo run --example by_hand

use rudzkvano::{BatchFault, Error, Key, Options, Order, Progress, Request, Row, Rows, Server};
use std::thread;

const SCHEMA: &str = "
    type Query { user(id: ID!): User users: [User!]! }
    type User { id: ID! name: String! posts: [Post!]! }
    type Post { id: ID! title: String! }";

const BINDINGS: &str = "bindings 1
loader userById users by id
loader allUsers users
loader postsByAuthor posts by author
field Query.user one userById arg id
field Query.users many allUsers all
field User.posts many postsByAuthor column id
";

const USERS: [[&str; 2]; 2] = [["1", "Ada"], ["2", "Bob"]];
const POSTS: [[&str; 3]; 3] = [["10", "1", "Loops"], ["11", "1", "Maps"], ["12", "2", "Trees"]];

fn owned(row: &[&str]) -> Row {
    row.iter().map(|&value| Some(value.to_owned())).collect()
}

/// Asks the source of an order, which may take its time.
fn ask(order: &Order) -> Result<Rows, BatchFault> {
    let is_asked = |text: &str| order.keys.iter().map(Key::first).any(|key| key == text);
    match order.loader.name.as_str() {
        "userById" => Ok(Rows::grouped(["id", "name"], USERS.iter().filter(|user| is_asked(user[0])).map(|user| owned(user)))),
        "allUsers" => Ok(Rows::grouped(["id", "name"], USERS.iter().map(|user| owned(user)))),
        "postsByAuthor" => {
            Ok(Rows::grouped(["id", "author", "title"], POSTS.iter().filter(|post| is_asked(post[1])).map(|post| owned(post))))
        }
        name => Err(BatchFault::new(format!("no function for loader {name}"))),
    }
}

fn main() -> Result<(), Error> {
    let server = Server::new(SCHEMA, BINDINGS)?;
    let mut client = server.client(&Options::default())?;
    client.begin(&Request::query("{user(id:2){name} users{name posts{title}}}"))?;
    while client.next()? == Progress::Round {
        let orders = client.orders()?;
        let replies: Vec<_> = thread::scope(|scope| {
            let asked: Vec<_> = orders.iter().map(|order| scope.spawn(|| ask(order))).collect();
            asked.into_iter().map(|reply| reply.join().expect("a source doesn't panic")).collect()
        });
        for (order, reply) in orders.iter().zip(replies) {
            match reply {
                Ok(rows) => client.reply(order, rows)?,
                Err(fault) => client.fail(order, &fault.to_string())?,
            }
        }
    }
    println!("{}", client.text()?);
    Ok(())
}
