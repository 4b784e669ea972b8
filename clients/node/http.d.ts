import type { IncomingMessage, OutgoingHttpHeaders, ServerResponse } from 'node:http';
import type { LoadersFor, Options, Server } from './index';

export interface HandlerOptions extends Omit<Options, 'signal'> {
  /** How many bytes the body of a request may have: 1,048,576 where it isn't given. */
  maxBody?: number;
  /** How many bytes the text of an answer may have: 16,777,216 where it isn't given. 0 is no limit. */
  maxAnswer?: number;
  /** How much work a request may be: 1,000,000 where it isn't given. 0 is no limit. */
  maxWork?: number;
}

/** A status of its own for a request, from 400 to 599. The function that makes the batch functions of a request may throw it. */
export class HttpError extends Error {
  constructor(status: number, message: string, headers?: OutgoingHttpHeaders);
  readonly status: number;
  readonly headers: OutgoingHttpHeaders;
}

/**
 * A listener for the requests of a server of node:http. `loaders` are the batch functions, or a function that makes them for a request. Where
 * `onError` isn't given, callers read a PublicError alone, and other errors go to console.error.
 */
export function handler(
  server: Server,
  loaders: LoadersFor<IncomingMessage>,
  options?: HandlerOptions,
): (request: IncomingMessage, response: ServerResponse) => Promise<void>;
