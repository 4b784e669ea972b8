/// <reference lib="es2020" />

/** A value in a row. A column with another value, as an object that isn't a Date, fails where it is used. */
export type Value = string | number | boolean | bigint | Date | null | undefined;
/** A row: a member for each column. */
export type Row = object;
/** Rows as a database driver gives them: arrays as long as `columns`. */
export interface Arrays {
  columns: readonly string[];
  rows: readonly (readonly Value[])[];
}
/** What is known of one key: its rows, its one row, none, or why there are none. */
export type Item<R extends Row = Row> = readonly R[] | R | null | undefined | Error;
declare const form: unique symbol;
/** What `aligned` makes. */
export interface Aligned<R extends Row = Row> {
  readonly [form]: 'aligned';
  readonly items: readonly Item<R>[];
}
/** What `inAnyOrder` makes. */
export interface InAnyOrder<R extends Row = Row> {
  readonly [form]: 'inAnyOrder';
  readonly rows: readonly R[] | Arrays;
}
/** An item for each key, in the order of the keys. */
export function aligned<R extends Row = Row>(items: readonly Item<R>[]): Aligned<R>;
/** Rows of all keys, which the library aligns with the keys by the loader's columns. */
export function inAnyOrder<R extends Row = Row>(rows: readonly R[] | Arrays): InAnyOrder<R>;
/** How an array is read that is neither. */
export type Form = 'aligned' | 'inAnyOrder';
/** What a batch function returns. A bare array is read as the option `rows` says, or else by its elements. */
export type Rows<R extends Row = Row> = Aligned<R> | InAnyOrder<R> | readonly Item<R>[] | Arrays;
/** A key: a text, or a pair of texts of a loader by two columns. */
export type Key = string | readonly [string, string];
/**
 * Asks for all these keys at once: texts, or pairs of them of a loader by two columns, or none of a loader by no column, which wants all rows. A
 * thrown error, or a rejection, fails the batch.
 */
export type BatchFunction<K extends Key = string, R extends Row = Row> = (keys: K[]) => Rows<R> | PromiseLike<Rows<R>>;
/** Batch functions by the names of their loaders. */
export type Loaders<K extends Key = any, R extends Row = any> = { readonly [loader: string]: BatchFunction<K, R> };
/** Batch functions, or what makes them for a request, of what is known of it. */
export type LoadersFor<Context> = Loaders | ((context: Context) => Loaders | PromiseLike<Loaders>);

export interface Request {
  query: string;
  operationName?: string | null;
  variables?: { readonly [name: string]: unknown } | null;
}
/** A request, its JSON text, or 1 to 16 requests that share their rounds. */
export type Requests = Request | string | readonly Request[];

export type Extensions = { readonly [name: string]: unknown };
export interface ResponseError {
  message: string;
  locations?: { line: number; column: number }[];
  path?: (string | number)[];
  extensions?: Extensions;
}
export interface Response<Data = { [name: string]: any }> {
  data?: Data | null;
  errors?: ResponseError[];
}

/** A table that can be asked by none, one or two of its columns. `folds`: the case of A to Z makes no other key. */
export interface Loader {
  readonly number: number;
  readonly name: string;
  readonly table: string;
  readonly columns: readonly string[];
  readonly folds: boolean;
}

/** A batch of a round. `failed` is why it failed. */
export interface Batch {
  loader: string;
  keys: readonly Key[];
  milliseconds: number;
  failed?: string;
}
export interface Round {
  round: number;
  batches: Batch[];
}

export interface AnswerOptions {
  /** Gives the request up: no further batch is asked for, and the answer rejects with the signal's reason. */
  signal?: AbortSignal;
  /** Is called after each round. */
  onRound?(round: Round): void;
  /**
   * Is called with what a batch function threw, or returned for a key. What it returns is what callers read; where that is nothing, they read a
   * PublicError as it is, and of other errors `internal error`. Without it they read the messages of all errors.
   */
  onError?(error: unknown, batch: { loader: string; keys: readonly Key[] }): string | { message: string; extensions?: Extensions } | void;
  /** How the bare arrays of all loaders by columns are read, or by loader. Without it an array is read by its elements. */
  rows?: Form | { readonly [loader: string]: Form };
  /**
   * Answers an operation that asks for `__schema` or `__type` alone, which isn't in an array: what `require('graphql')` returns. Without it these
   * are refused. graphql-js has no limits for a query: `maxAnswer` holds for what it has answered, and `maxWork` and `maxRounds` don't.
   */
  introspection?: GraphQLLibrary;
}
/** What is used of graphql-js. */
export interface GraphQLLibrary {
  buildSchema(text: string): any;
  parse(text: string): any;
  graphqlSync(request: any): any;
}
export interface Options extends AnswerOptions {
  /** How many keys one batch may have, at most 65,535: of all loaders, or by loader. 0 is no limit. */
  maxBatch?: number | { readonly [loader: string]: number };
  /** How many bytes the text of an answer may have. 0 is no limit. */
  maxAnswer?: number;
  /**
   * How much work a request may be, or all of an array in sum: how many positions its answer has. As soon as it is more, by what is known, no further
   * batch is asked for, and the answer is `too much work`. 0 is no limit.
   */
  maxWork?: number;
  /** How many rounds a request may take, or all of an array together. One that needs more is answered with `too many rounds`. 0 is no limit. */
  maxRounds?: number;
}

/** A call of the library was refused. `name` is the name of the code, as RZ_BUSY. */
export class RudzkvanoError extends Error {
  readonly code: number;
}
/** A key that was loaded has no rows; the message says why. `ofBatch`: its whole batch failed. */
export class LoadFault extends Error {
  readonly ofBatch: boolean;
  readonly extensions?: Extensions;
}
/** An error whose message and extensions are meant for callers. */
export class PublicError extends Error {
  constructor(message: string, options?: { extensions?: Extensions; cause?: unknown });
  readonly extensions?: Extensions;
}
/** A schema or its bindings are refused, by the fault S`number`. `line` and `column` are from 1, and 0 where it has none. The message says why. */
export class SchemaFault extends RudzkvanoError {
  readonly number: number;
  readonly line: number;
  readonly column: number;
  readonly inBindings: boolean;
}

/** A schema with its bindings. */
export class Server {
  constructor(texts: { schema: string; bindings: string });
  readonly loaders: readonly Loader[];
  /** Answers a request, and knows nothing of other requests. */
  answer<Data = { [name: string]: any }>(request: Request, loaders: Loaders, options?: Options): Promise<Response<Data>>;
  answer(requests: readonly Request[], loaders: Loaders, options?: Options): Promise<Response[]>;
  answer(requests: Requests, loaders: Loaders, options?: Options): Promise<Response | Response[]>;
  /** The same, as the text of the response. */
  answerText(request: Requests, loaders: Loaders, options?: Options): Promise<string>;
  /** A client, which keeps what its requests load. */
  client(loaders: Loaders, options?: Options): Client;
  /** Frees what the server holds. Its clients, and the requests that are being answered, go on. */
  close(): void;
}

/** A memory of what the batch functions returned. It answers one request at a time, or loads keys. */
export class Client {
  private constructor();
  answer<Data = { [name: string]: any }>(request: Request, options?: AnswerOptions): Promise<Response<Data>>;
  answer(requests: readonly Request[], options?: AnswerOptions): Promise<Response[]>;
  answer(requests: Requests, options?: AnswerOptions): Promise<Response | Response[]>;
  answerText(request: Requests, options?: AnswerOptions): Promise<string>;
  /**
   * For each key its rows, in order, or a LoadFault. Keys that aren't known are asked for in one round, of equal keys only the first. Values are
   * texts, and null where they are empty.
   */
  loadMany(
    loader: string,
    keys: Iterable<string | number | readonly (string | number)[] | undefined>,
    options?: AnswerOptions,
  ): Promise<({ [column: string]: string | null }[] | LoadFault)[]>;
  /** Knows this for a key, unless something is known of it. Returns whether it was added. `key` is undefined for a loader by no column. */
  prime(loader: string, key: string | number | readonly (string | number)[] | undefined, item: Item | Arrays): boolean;
  /** Forgets a key. Returns whether something was known of it. */
  clear(loader: string, key: string | number | readonly (string | number)[] | undefined): boolean;
  /** Forgets all keys of a loader. */
  clearAll(loader: string): void;
  /** Forgets all keys, and what was asked. */
  restart(): void;
  /** The batches that a loader was asked for since the client was made or restarted. `stored`: their replies are known. */
  log(loader: string): { round: number; stored: boolean; keys: readonly Key[] }[];
  /** Frees what the client holds. A request that is being answered is given up. */
  close(): void;
}

export interface ExecutionArguments<Context = any> {
  /** The text of a document, or what graphql-js parsed it to. */
  document: string | { readonly loc?: { readonly source: { readonly body: string } } };
  variableValues?: { readonly [variable: string]: unknown } | null;
  operationName?: string | null;
  contextValue?: Context;
  /** Of no use: the schema is the server's. */
  schema?: unknown;
}
/** An `execute` as that of graphql-js. `loaders` are the batch functions, or a function that makes them of the contextValue. */
export function executor<Context = any>(
  server: Server,
  loaders: LoadersFor<Context>,
  options?: Options,
): (request: ExecutionArguments<Context>) => Promise<Response>;
