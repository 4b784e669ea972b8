// Operations that ask for the schema alone, answered by graphql-js over the schema's text.
'use strict';

/** What asks for the schema. */
const META = ['__schema', '__type'];
const ASKS = new RegExp(`${META.join('\\b|')}\\b`);
const TOO_LONG = JSON.stringify({ errors: [{ message: 'answer too long' }] });

/** A request, where it is one and may ask for the schema. */
function requestOf(request) {
  try {
    const { query, operationName, variables } = typeof request === 'string' && ASKS.test(request) ? JSON.parse(request) : request;
    return typeof query === 'string' && ASKS.test(query) ? { query, operationName, variables } : undefined;
  } catch {
    return undefined;
  }
}

/** The operation of a document that is to run, and the fragments by name. */
function operationOf({ definitions }, operationName) {
  const operations = definitions.filter(({ kind }) => kind === 'OperationDefinition');
  const fragments = new Map(definitions.filter(({ kind }) => kind === 'FragmentDefinition').map((fragment) => [fragment.name.value, fragment]));
  const named = operationName ? operations.filter(({ name }) => name?.value === operationName) : operations;
  return { operation: named.length === 1 ? named[0] : undefined, fragments };
}

/** Adds the names of the fields that a selection set has, through its fragments. */
function addFields({ selections }, fragments, fields, seen) {
  for (const { kind, name, selectionSet } of selections) {
    if (kind === 'Field') fields.add(name.value);
    else if (kind === 'InlineFragment') addFields(selectionSet, fragments, fields, seen);
    else if (!seen.has(name.value)) {
      seen.add(name.value);
      if (fragments.has(name.value)) addFields(fragments.get(name.value).selectionSet, fragments, fields, seen);
    }
  }
  return fields;
}

/** Whether an operation asks for the schema, and for nothing else but `__typename`. */
function asksForSchema(document, operationName) {
  const { operation, fragments } = operationOf(document, operationName);
  if (operation?.operation !== 'query') return false;
  const fields = addFields(operation.selectionSet, fragments, new Set(), new Set());
  fields.delete('__typename');
  return fields.size > 0 && [...fields].every((field) => META.includes(field));
}

class Introspection {
  #text;
  /** The schema that each graphql-js made of the text. */
  #schemas = new WeakMap();

  constructor(text) {
    this.#text = text;
  }

  /** The text of the response to a request that asks for the schema alone; or undefined, where it is another, or there is no graphql-js. */
  answerText(request, { introspection: graphql, maxAnswer }) {
    const asked = graphql && requestOf(request);
    if (!asked || !this.#isAsked(graphql, asked)) return undefined;
    const { query: source, operationName, variables: variableValues } = asked;
    const text = JSON.stringify(graphql.graphqlSync({ schema: this.#schema(graphql), source, operationName, variableValues }));
    return maxAnswer && Buffer.byteLength(text) > maxAnswer ? TOO_LONG : text;
  }

  #isAsked(graphql, { query, operationName }) {
    try {
      return asksForSchema(graphql.parse(query), operationName);
    } catch {
      // it isn't a document, and is answered so
      return false;
    }
  }

  #schema(graphql) {
    if (!this.#schemas.has(graphql)) this.#schemas.set(graphql, graphql.buildSchema(this.#text));
    return this.#schemas.get(graphql);
  }
}

module.exports = { Introspection };
