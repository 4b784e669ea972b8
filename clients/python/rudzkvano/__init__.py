"""Rudzkvano for Python, over its C library: a GraphQL query executor with DataLoader batching, whose batch functions are yours.

    from rudzkvano import Server

    server = Server(schema, bindings)
    response = server.answer("{user(id:1){name}}", {"userById": lambda ids: [users.get(id) for id in ids]})
"""

from .client import Client, Progress, Query
from .errors import OnError, PublicError
from .http import HTTPError
from .library import Library, LoadFault, Refused, RudzkvanoError, SchemaFault, WrongLibrary
from .loaders import Aligned, Batch, BatchFunction, InAnyOrder, Keys, Loaded, Loader, Loaders, Order, Ran, Returned, Round, aligned, in_any_order
from .server import Options, Server

__all__ = [
    "Aligned",
    "Batch",
    "BatchFunction",
    "Client",
    "HTTPError",
    "InAnyOrder",
    "Keys",
    "Library",
    "LoadFault",
    "Loaded",
    "Loader",
    "Loaders",
    "OnError",
    "Options",
    "Order",
    "Progress",
    "PublicError",
    "Query",
    "Ran",
    "Refused",
    "Returned",
    "Round",
    "RudzkvanoError",
    "SchemaFault",
    "Server",
    "WrongLibrary",
    "aligned",
    "in_any_order",
]
