#!/usr/bin/env python3
"""Writes a world of USERS users and POSTS posts, and request files over it, into the current folder: make_world.py USERS POSTS.

The files are schema.graphql, bindings.txt, users.csv, posts.csv, likes.csv and one NAME.jsonl for each load that README.md
names. The same words give the same files."""
import json
import random
import sys

users = int(sys.argv[1]) if len(sys.argv) > 1 else 1000
posts = int(sys.argv[2]) if len(sys.argv) > 2 else 50000
draw = random.Random(1)

SCHEMA = """type Query {
  user(id: ID!): User
  usersByIds(ids: [ID!]!): [User]!
  users: [User!]!
  posts: [Post!]!
}
type User { id: ID! name: String! best: User posts: [Post!]! liked: [Post]! }
type Post { id: ID! author: User! title: String! }
"""
BINDINGS = """bindings 1
loader userById users by id
loader allUsers users
loader allPosts posts
loader postsByAuthor posts by author
loader likesByUser likes by user
loader postById posts by id
field Query.user one userById arg id
field Query.usersByIds each userById arg ids
field Query.users many allUsers all
field Query.posts many allPosts all
field User.best one userById column best
field User.posts many postsByAuthor column id
field User.liked via likesByUser column id postById post
field Post.author one userById column author
"""


def write(name, lines):
    with open(name, "w") as out:
        out.writelines(line + "\n" for line in lines)


def requests(name, queries):
    write(name + ".jsonl", (json.dumps({"query": query}) for query in queries))


with open("schema.graphql", "w") as out:
    out.write(SCHEMA)
with open("bindings.txt", "w") as out:
    out.write(BINDINGS)
write("users.csv", ["id,name,best"] + [f"{i},user {i},{i % users + 1}" for i in range(1, users + 1)])
write("posts.csv", ["id,author,title"] + [f"{i},{(i - 1) % users + 1},a title of some length {i}" for i in range(1, posts + 1)])
write("likes.csv", ["user,post"] + [f"{i},{draw.randint(1, posts)}" for i in range(1, users + 1)])

requests("small", (f"{{user(id:{draw.randint(1, users)}){{name}}}}" for _ in range(20000)))
requests("wide", ["{posts{id title author{name}}}"])
requests("chain", ["{user(id:1){" + "best{" * 100 + "id" + "}" * 100 + "}}"] * 20)
requests("ids", ["{usersByIds(ids:[" + ",".join(str(draw.randint(1, users)) for _ in range(5000)) + "]){id name}}"] * 20)
fields = " ".join(f"f{i}:name" for i in range(890))
fragments = " ".join(f"...F{i}" for i in range(100))
definitions = " ".join(f"fragment F{i} on User{{name}}" for i in range(100))
requests("fields", ["{user(id:1){" + fields + " " + fragments + "}} " + definitions] * 20)
requests("two_loaders", ["{users{posts{id} liked{title}}}"])

# the same 16,000 requests of one user and the user's best, a line each and 16 to a line
few = [{"query": f"{{user(id:{draw.randint(1, users)}){{name best{{name}}}}}}"} for _ in range(16000)]
write("apart.jsonl", (json.dumps(request) for request in few))
write("together.jsonl", (json.dumps(few[at : at + 16]) for at in range(0, len(few), 16)))
