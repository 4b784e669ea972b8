// An `execute` as graphql-js has it, for servers that let another one be given.
'use strict';

/** The text of a document, which is one, or was parsed from one. */
function textOf(document) {
  const text = typeof document === 'string' ? document : document?.loc?.source?.body;
  if (typeof text !== 'string') throw new TypeError('the document has no text: it is a string, or was parsed without the option noLocation');
  return text;
}

/**
 * An `execute({ document, variableValues, operationName, contextValue })` over a server. `loaders` are the batch functions, or a function, async or
 * not, from the contextValue to them. `options` are those of Server.answer. The schema is the server's own.
 */
function executor(server, loaders, options) {
  return async function execute({ document, variableValues, operationName, contextValue }) {
    const functions = typeof loaders === 'function' ? await loaders(contextValue) : loaders;
    return server.answer({ query: textOf(document), variables: variableValues, operationName }, functions, options);
  };
}

module.exports = { executor };
