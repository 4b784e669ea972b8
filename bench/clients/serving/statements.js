// The statements of the shop's batches that the requests of requests.lua need, over PostgreSQL.
'use strict';

const { Pool, types } = require('pg');

const DATE = 1082;
types.setTypeParser(DATE, (text) => text);

const CUSTOMERS = 'select id, name, email, city, joined from customers';
const ORDERS = 'select id, customer_id, date, status from orders';

/** For each loader the statement up to its condition, the column that it is by, and the order of its rows. */
const STATEMENTS = {
  customerById: [CUSTOMERS, 'id', ''],
  customersByCity: [CUSTOMERS, 'city', 'order by id'],
  orderById: [ORDERS, 'id', ''],
  ordersByCustomer: [ORDERS, 'customer_id', 'order by date, id'],
  linesByOrder: ['select order_id, product_id, quantity, price from lines', 'order_id', 'order by product_id'],
  productById: ['select id, name, category, price from products', 'id', ''],
};

/** Connections to the database of words as "host=.. user=.. dbname=..". */
function connect(words) {
  const [host, user, database] = ['host', 'user', 'dbname'].map((name) => words.match(new RegExp(`\\b${name}=(\\S+)`))?.[1]);
  return new Pool({ host, user, database, max: 32 });
}

/** The rows for these keys, by one statement. */
async function rowsOf(pool, [head, column, order], keys) {
  const places = keys.map((_, place) => `$${place + 1}`).join(', ');
  return (await pool.query(`${head} where ${column} in (${places}) ${order}`, keys)).rows;
}

module.exports = { STATEMENTS, connect, rowsOf };
