// Tables in memory, and the requests of each workload over them; the same for the same scale.
'use strict';

/** Whole numbers from 1 to a bound, the same in each run. */
function numbers(seed) {
  let state = seed;
  return (most) => {
    state = (Math.imul(state, 1664525) + 1013904223) >>> 0;
    return 1 + Math.floor((state / 2 ** 32) * most);
  };
}

function tables(users, postsEach, likesEach, ring) {
  const random = numbers(7);
  const to = (count, row) => Array.from({ length: count }, (_, i) => row(String(i + 1), i + 1));
  const linked = Math.floor(users * 0.9);
  const best = (i) => (i > linked ? null : String(ring ? (i % linked) + 1 : random(linked)));
  return {
    users: to(users, (id, i) => ({ id, name: `User ${id}`, best: best(i) })),
    posts: to(users * postsEach, (id) => ({ id, author: String(random(users)), title: `Title of post ${id}` })),
    likes: to(users * likesEach, () => ({ user: String(random(users)), post: String(random(users * postsEach)) })),
  };
}

function indexed(rows, column) {
  const index = new Map();
  for (const row of rows) {
    if (index.has(row[column])) index.get(row[column]).push(row);
    else index.set(row[column], [row]);
  }
  return index;
}

/** The batch functions, each as a DataLoader takes it. */
function loadersOver({ users, posts, likes }) {
  const [user, post] = [users, posts].map((rows) => new Map(rows.map((row) => [row.id, row])));
  const [byAuthor, byUser] = [indexed(posts, 'author'), indexed(likes, 'user')];
  return {
    userById: async (ids) => ids.map((id) => user.get(id) ?? null),
    allUsers: async () => users,
    postsByAuthor: async (ids) => ids.map((id) => byAuthor.get(id) ?? []),
    likesByUser: async (ids) => ids.map((id) => byUser.get(id) ?? []),
    postById: async (ids) => ids.map((id) => post.get(id) ?? null),
  };
}

const times = (count, request) => Array.from({ length: count }, (_, i) => request(i));

function wideRequest(i, random, count, users) {
  const ids = times(count, () => random(users + 500));
  const [first, second] = [ids.map(String), ids.toReversed().map(String)];
  return [
    { query: `{usersByIds(ids:[${ids}]){name}}` },
    {
      query: 'query Q($i:[ID!]!){a:usersByIds(ids:$i){...U} b:usersByIds(ids:$i){...U best{...U}}} fragment U on User{id n:name}',
      variables: { i: first },
    },
    {
      query: `query Q($i:[ID!]!,$j:[ID!]!){a:usersByIds(ids:$i){...A} b:usersByIds(ids:$j){...B}}
        fragment A on User{id ...C} fragment B on User{...C ...A} fragment C on User{__typename name}`,
      variables: { i: first, j: second },
    },
    { query: `{usersByIds(ids:[${ids.map((id) => `"${id}"`)}]){id best{id name best{name}}}}` },
  ][i % 4];
}

/** A workload has its tables and its requests. `scale` moves how many requests there are, or how much one asks for. */
const workloads = {
  /** Many small requests, each of another text. */
  small(scale) {
    const random = numbers(1);
    return { tables: tables(100_000, 1, 1), requests: times(20_000 * scale, () => ({ query: `{user(id:${random(105_000)}){name}}` })) };
  },
  /** Many small requests of one text. */
  vars(scale) {
    const random = numbers(2);
    const query = 'query($id:ID!){user(id:$id){name best{name}}}';
    return { tables: tables(1_000, 5, 5), requests: times(20_000 * scale, () => ({ query, variables: { id: String(random(1_050)) } })) };
  },
  /** All users, their posts, and the authors of these. */
  nested(scale) {
    return { tables: tables(10_000 * scale, 5, 1), requests: [{ query: '{users{posts{author{name}}}}' }] };
  },
  /** Lists of 5,000 keys. */
  wide(scale) {
    const random = numbers(3);
    return { tables: tables(20_000, 2, 1), requests: times(40 * scale, (i) => wideRequest(i, random, 5_000, 20_000)) };
  },
  /** Chains of 100 users, each a round. */
  deep(scale) {
    const random = numbers(4);
    const chain = `${'{best'.repeat(100)}{name}${'}'.repeat(100)}`;
    return { tables: tables(1_000, 1, 1, true), requests: times(300 * scale, () => ({ query: `{user(id:${random(900)})${chain}}` })) };
  },
  /** Through a table of pairs: once for all users, and for single ones. */
  liked(scale) {
    const random = numbers(5);
    const single = () => ({ query: `{user(id:${random(5_000 * scale)}){name liked{title author{name liked{id}}}}}` });
    return { tables: tables(5_000 * scale, 5, 4), requests: [{ query: '{users{liked{title author{name}}}}' }, ...times(500 * scale, single)] };
  },
};

module.exports = { loadersOver, workloads };
