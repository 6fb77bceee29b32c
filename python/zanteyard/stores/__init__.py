"""The stores that sessions run on, one module each, since all except `memory` and `sqlite` need a
driver: `postgres`, `mariadb`, `redis`. Every store has the methods of `Store`, which `zanteyard`
exports. The protocols here are optional parts of a store."""

from ..session._stores import BoundedStore, BulkStore, ObservedStore, TracedStore

__all__ = ["BoundedStore", "BulkStore", "ObservedStore", "TracedStore"]
