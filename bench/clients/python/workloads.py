"""Tables in memory, the batch functions over them, and the requests of each workload. All are the same on each run."""

import random
from collections.abc import Iterable
from typing import Any

SCHEMA = """
type Query { user(id: ID!): User  usersByIds(ids: [ID!]!): [User]!  users: [User!]! }
type User { id: ID!  name: String!  best: User  posts: [Post!]!  liked: [Post]! }
type Post { id: ID!  author: User!  title: String! }
"""
BINDINGS = """bindings 1
loader userById users by id
loader allUsers users
loader postsByAuthor posts by author
loader likesByUser likes by user
loader postById posts by id
field Query.user one userById arg id
field Query.usersByIds each userById arg ids
field Query.users many allUsers all
field User.best one userById column best
field User.posts many postsByAuthor column id
field User.liked via likesByUser column id postById post
field Post.author one userById column author
"""
Row = dict[str, Any]
Request = tuple[str, dict[str, Any] | None]


class Tables:
    """Users, `posts` posts for each and as many likes as `likes` says for each. One ring of `best` goes through all users."""

    def __init__(self, users: int, posts: int, likes: int) -> None:
        chance = random.Random(1)
        ring = chance.sample(range(1, users + 1), users)
        best = dict(zip(ring, ring[1:] + ring[:1]))
        self.users = {id: {"id": id, "name": f"User {id}", "best": best[id]} for id in range(1, users + 1)}
        self.posts = {id: {"id": id, "author": chance.randint(1, users), "title": f"Title of post {id}"} for id in range(1, users * posts + 1)}
        self.posts_of: dict[int, list[Row]] = {id: [] for id in self.users}
        for post in self.posts.values():
            self.posts_of[post["author"]].append(post)
        self.likes_of: dict[int, list[Row]] = {id: [] for id in self.users}
        for _ in range(users * likes):
            user = chance.randint(1, users)
            self.likes_of[user].append({"user": user, "post": chance.randint(1, users * posts)})
        self.batches = 0

    async def user_by_id(self, keys: list[Any]) -> list[Row | None]:
        self.batches += 1
        return [self.users.get(int(key)) for key in keys]

    async def all_users(self, _: list[Any]) -> list[Row]:
        self.batches += 1
        return list(self.users.values())

    async def posts_by_author(self, keys: list[Any]) -> list[list[Row]]:
        self.batches += 1
        return [self.posts_of.get(int(key), []) for key in keys]

    async def likes_by_user(self, keys: list[Any]) -> list[list[Row]]:
        self.batches += 1
        return [self.likes_of.get(int(key), []) for key in keys]

    async def post_by_id(self, keys: list[Any]) -> list[Row | None]:
        self.batches += 1
        return [self.posts.get(int(key)) for key in keys]

    def functions(self) -> dict[str, Any]:
        return {
            "userById": self.user_by_id,
            "allUsers": self.all_users,
            "postsByAuthor": self.posts_by_author,
            "likesByUser": self.likes_by_user,
            "postById": self.post_by_id,
        }


def _small(count: int) -> Iterable[Request]:
    """One user each: another text each."""
    chance = random.Random(2)
    return [(f"{{user(id:{chance.randint(1, 1000)}){{name}}}}", None) for _ in range(count)]


def _variables(count: int) -> Iterable[Request]:
    """One user and the user's best each: one text, with variables."""
    chance = random.Random(3)
    return [("query($id:ID!){user(id:$id){name best{name}}}", {"id": str(chance.randint(1, 1000))}) for _ in range(count)]


def _wide(count: int) -> Iterable[Request]:
    """Lists of 5,000 ids: literals, variables, aliases, fragments."""
    chance = random.Random(4)
    for number in range(count):
        ids = [chance.randint(1, 20500) for _ in range(5000)]
        if number % 2:
            query = "query Q($i:[ID!]!){a:usersByIds(ids:$i){...U} b:usersByIds(ids:$i){...U best{...U}}} fragment U on User{id n:name}"
            yield query, {"i": [str(id) for id in ids]}
        else:
            yield f"{{usersByIds(ids:[{','.join(map(str, ids))}]){{name}}}}", None


def _deep(count: int) -> Iterable[Request]:
    """Chains of 100 levels, each another user."""
    chance = random.Random(5)
    return [(f"{{user(id:{chance.randint(1, 1000)}){'{best' * 100}{{name}}{'}' * 100}}}", None) for _ in range(count)]


def _liked(count: int) -> Iterable[Request]:
    """The posts that users liked, with their authors: of all users at once, and of one user each."""
    chance = random.Random(6)
    yield "{users{liked{title author{name}}}}", None
    for _ in range(count):
        yield f"{{user(id:{chance.randint(1, 1000)}){{name liked{{title author{{name liked{{id}}}}}}}}}}", None


def workloads(scale: float) -> Iterable[tuple[str, Tables, list[Request]]]:
    """The name, the tables and the requests of each workload."""
    thousand = Tables(1000, 5, 4)
    yield "small", thousand, list(_small(round(2000 * scale)))
    yield "variables", thousand, list(_variables(round(2000 * scale)))
    yield "nested", Tables(round(10000 * scale), 5, 1), [("{users{posts{author{name}}}}", None)]
    yield "wide", Tables(20000, 2, 1), list(_wide(round(8 * scale)))
    yield "deep", thousand, list(_deep(round(20 * scale)))
    yield "liked", thousand, list(_liked(round(50 * scale)))
