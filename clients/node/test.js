// The tests of the client.
//
//     node --expose-gc test.js [--full]
//
// RUDZKVANO_QUERY_CLI is a query_cli to compare with, where that isn't crates/query_cli/out/query_cli. --full has the counts of docs/TESTING.md.
'use strict';

require('./test/answers.js');
require('./test/faults.js');
require('./test/errors.js');
require('./test/clients.js');
require('./test/limits.js');
require('./test/introspection.js');
require('./test/http.js');
require('./test/types.js');
require('./test/pack.js');
require('./test/load.js');
