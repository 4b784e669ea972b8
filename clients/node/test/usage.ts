// What the types take and refuse: test/types.js has a compiler check this file, and nothing runs it.
import {
  aligned, executor, inAnyOrder, LoadFault, PublicError, Server,
  type BatchFunction, type Batch, type Client, type ExecutionArguments, type Item, type Key, type Loaders, type LoadersFor, type Options,
  type Request, type Requests, type Response, type Rows,
} from 'rudzkvano';
import { handler, HttpError, type HandlerOptions } from 'rudzkvano/http';
import * as graphql from 'graphql';
import * as http from 'node:http';

interface User {
  id: number;
  name: string;
}
declare const server: Server;
declare const users: User[];
declare const requests: Requests;

// generic in key and row
const userById: BatchFunction<string, User> = async (ids) => users.filter(({ id }) => ids.includes(String(id)));
const voteByBoth: BatchFunction<[string, string], { user: string; post: string }> = (keys) => keys.map(([user, post]) => ({ user, post }));
const allUsers: BatchFunction<string, User> = () => users;
const loaders: Loaders = { userById, voteByBoth, allUsers, plain: (keys) => keys.map(() => null) };
const ofUsers: Loaders<string, User> = { userById };
const rows: Rows<User> = [users[0], users, null, undefined, new Error('gone')];
const item: Item<User> = users[0];
const arrays: Rows = { columns: ['id', 'name'], rows: [[1, 'Ada'], [2n, null]] };
const sorted: BatchFunction<string, User> = async () => inAnyOrder(users);
const inOrder: BatchFunction<string, User> = async (ids) => aligned(ids.map((id) => users.find((user) => String(user.id) === id)));
const ofArrays: BatchFunction = () => inAnyOrder({ columns: ['id'], rows: [[1]] });
// @ts-expect-error: rows of nothing
const noSuchRow: BatchFunction<string, User> = () => inAnyOrder([null]);
// @ts-expect-error: a row of another type
const otherRow: BatchFunction<string, User> = () => [{ id: '1' }];
// @ts-expect-error: a key of another type
const otherKey: BatchFunction<number, User> = () => [];
// @ts-expect-error: no array
const noRows: Loaders = { userById: () => 7 };

// answers take the types that are exported
const one: Request = { query: '{user(id:1){name}}', variables: { a: 1 }, operationName: null };
const some: readonly Request[] = [one];
export const response: Promise<Response<{ user: User | null }>> = server.answer<{ user: User | null }>(one, loaders);
export const responses: Promise<Response[]> = server.answer(some, loaders);
export const either: Promise<Response | Response[]> = server.answer(requests, loaders);
export const text: Promise<string> = server.answerText(requests, ofUsers);
// @ts-expect-error: a request has a query
server.answer({ variables: {} }, loaders);

// options and hooks
const onError: Options['onError'] = (error, { loader, keys }) => {
  if (error instanceof PublicError) return { message: error.message, extensions: { ...error.extensions, loader } };
  return keys.length > 1 ? 'internal error' : undefined;
};
const limits: Options = { maxBatch: { userById: 100 }, maxAnswer: 0, maxWork: 1_000_000, maxRounds: 10 };
const options: Options = { ...limits, onError, introspection: graphql, onRound: ({ batches }) => batches.map(told), rows: 'aligned' };
function told({ loader, keys, failed }: Batch): [string, readonly Key[], string | undefined] {
  return [loader, keys, failed];
}
server.answer(one, loaders, { rows: { userById: 'inAnyOrder' } });
// @ts-expect-error: no form
server.answer(one, loaders, { rows: 'sorted' });
server.answer(one, loaders, { signal: new AbortController().signal, ...options });
server.answer(one, loaders).then(({ errors }) => errors?.map(({ message, extensions }) => [message, extensions?.code]));
// @ts-expect-error: a hook that waits says nothing
server.answer(one, loaders, { onError: async () => 'later' });

// a client
async function load(client: Client): Promise<string | null | undefined> {
  const [found] = await client.loadMany('userById', [1, '2', ['3', 4], undefined]);
  client.prime('userById', 1, item);
  await client.answer(requests);
  return found instanceof LoadFault ? String(found.extensions) : found[0].name;
}
load(server.client(loaders, options));

// over HTTP, and by execute
const handling: HandlerOptions = { ...options, maxBody: 100, maxAnswer: 100, maxWork: 100 };
http.createServer(handler(server, loaders, handling));
http.createServer(handler(server, async ({ headers }) => {
  if (!headers.authorization) throw new HttpError(401, 'sign in first', { 'WWW-Authenticate': 'Bearer' });
  return loaders;
}));
interface Context {
  loaders: Loaders;
}
const ofContext: LoadersFor<Context> = (context) => context.loaders;
const execute = executor<Context>(server, ofContext, options);
const executing: ExecutionArguments<Context> = { document: graphql.parse('{user(id:1){name}}'), contextValue: { loaders } };
execute(executing).then(({ data }) => data?.user);
// @ts-expect-error: no text of a document
execute({ document: 7 });

export { arrays, inOrder, noRows, noSuchRow, ofArrays, otherKey, otherRow, rows, sorted };
