-- Requests of the shop for wrk, each with an id or a city by chance, and how they were answered as a line of JSON.
--
--     wrk --latency -s requests.lua ADDRESS -- small
local queries = {
  -- three rounds, four statements, some 300 bytes
  small = {
    query = "query($id: ID!) {order(id: $id) {date status customer {name city} lines {quantity price product {name}}}}",
    variables = function() return string.format('{"id":%d}', math.random(20000)) end,
  },
  -- four rounds, four statements, some 600 keys and 45 kB
  large = {
    query = "query($city: String!) {customersIn(city: $city) {name orders {date lines {quantity product {name category}}}}}",
    variables = function() return string.format('{"city":"%s"}', cities[math.random(#cities)]) end,
  },
}
cities = {"Athens", "Bergen", "Chicago", "Dublin", "Edinburgh", "Florence", "Geneva", "Hanoi", "Istanbul", "Kyoto", "Lima", "Madrid", "Nairobi", "Oslo",
  "Prague", "Quito", "Riga", "Seoul", "Tokyo", "Utrecht", "Vienna", "Warsaw", "York", "Zagreb"}

local threads = 0
function setup(thread)
  threads = threads + 1
  thread:set("seed", threads)
end

function init(words)
  math.randomseed(seed)
  asked = queries[words[1]]
  headers = {["Content-Type"] = "application/json", ["Accept"] = "application/graphql-response+json"}
end

function request()
  return wrk.format("POST", "/graphql", headers, string.format('{"query":"%s","variables":%s}', asked.query, asked.variables()))
end

function done(summary, latency, requests)
  local errors = summary.errors
  local failed = errors.connect + errors.read + errors.write + errors.status + errors.timeout
  io.write(string.format('{"requests":%d,"seconds":%.3f,"failed":%d,"p50":%.2f,"p99":%.2f,"p999":%.2f,"most":%.2f}\n', summary.requests,
    summary.duration / 1e6, failed, latency:percentile(50) / 1e3, latency:percentile(99) / 1e3, latency:percentile(99.9) / 1e3, latency.max / 1e3))
end
