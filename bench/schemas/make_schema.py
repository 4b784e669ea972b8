#!/usr/bin/env python3
"""Writes schema.graphql and bindings.txt of COUNT object types, each with ten fields, into the current folder: make_schema.py COUNT."""
import sys

count = int(sys.argv[1])
schema, fields = [], []
root = []
for i in range(count):
    root.append(f"t{i}(id:ID!):T{i}")
    below = " ".join(f"f{k}:String" for k in range(7))
    schema.append(f"type T{i} implements Named {{id:ID! name:String! {below} next:T{(i + 1) % count}}}")
    fields.append(f"field Query.t{i} one l{i} arg id")
    fields.append(f"field T{i}.next one l{i} column next")
with open("schema.graphql", "w") as out:
    out.write("interface Named {name:String!}\ntype Query {" + " ".join(root) + "}\n" + "\n".join(schema) + "\n")
with open("bindings.txt", "w") as out:
    out.write("bindings 1\n" + "".join(f"loader l{i} table{i} by id\n" for i in range(count)))
    out.write("\n".join(fields) + "\n")
