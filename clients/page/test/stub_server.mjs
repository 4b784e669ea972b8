// A server of canned answers, for the page's live mode.
import { createServer } from 'node:http';
import { readFileSync } from 'node:fs';

const page = new URL('../index.html', import.meta.url);

/** Serves the page, and answers each request with what a test has put into `answer`. */
export class StubServer {
  /** @type {{status?: number, text: string, wait?: Promise<void>}} */ answer = { text: '{}' };
  /** @type {string | undefined} the text of `GET /examples`; without it there is none */ examples;
  /** @type {string | undefined} the text of `GET /schema.graphql`; without it there is none */ schema;
  /** @type {{method: string, type: string, accept: string, body: string}[]} */ asked = [];

  constructor() {
    this.server = createServer((request, response) => this.#serve(request, response));
  }

  /** @returns {Promise<string>} the address of the page */
  async start() {
    await new Promise(resolve => this.server.listen(0, '127.0.0.1', resolve));
    return `http://127.0.0.1:${this.server.address().port}/`;
  }

  async stop() {
    this.server.closeAllConnections();
    await new Promise(resolve => this.server.close(resolve));
  }

  async #serve(request, response) {
    if (request.url === '/') return this.#send(response, 200, 'text/html; charset=utf-8', readFileSync(page));
    if (request.url === '/examples' && this.examples !== undefined) return this.#send(response, 200, 'application/json', this.examples);
    if (request.url === '/schema.graphql' && this.schema !== undefined) return this.#send(response, 200, 'text/plain; charset=utf-8', this.schema);
    if (request.url !== '/graphql') return this.#send(response, 404, 'text/plain', 'nothing here');
    let body = '';
    for await (const part of request.setEncoding('utf8')) body += part;
    const { 'content-type': type, accept } = request.headers;
    this.asked.push({ method: request.method, type, accept, body });
    await this.answer.wait;
    this.#send(response, this.answer.status ?? 200, 'application/json', this.answer.text);
  }

  #send(response, status, type, text) {
    response.writeHead(status, { 'content-type': type }).end(text);
  }
}
