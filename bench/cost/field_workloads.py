"""The workloads of bench/cost/field.py: generators of transactions, as their papers describe them.

Cobra's (OSDI 2020) are BlindW-RM, BlindW-RW and BlindW-RR, C-Twitter, C-RUBiS and C-TPCC; the last
three are small here. list-append is Elle's (VLDB 2020). What the papers leave open is chosen here.

A transaction is a function of a client, which has `get(key)`, `put(key, value)`, and for lists
`append(key, element)`. All that is random is drawn before it runs, so that an attempt that aborts
is repeated as it was. What it reads may decide what it does next. Transaction number n of a
workload is run by session n % sessions.
"""
import bisect
import itertools
import random
from collections.abc import Callable, Iterator, Sequence
from functools import partial
from typing import Any

Transaction = Callable[[Any], None]
SESSIONS = 24


class Workload:
    """`may_skew`: whether snapshot isolation allows what serializability forbids. It doesn't if no
    transaction reads what others write and writes something else, as in BlindW, nor in TPC-C."""

    name = ""
    may_skew = False
    has_lists = False

    def rows(self) -> dict[str, Any]:
        """What the store has before the first transaction."""
        return {}

    def transactions(self, draw: random.Random, sessions: int) -> Iterator[Transaction]:
        """Transactions without end."""
        raise NotImplementedError


class Zipf:
    """Draws numbers below `count`; number n is drawn with a weight of 1 / (n + 1)."""

    def __init__(self, count: int) -> None:
        self.sums = [*itertools.accumulate(1 / (n + 1) for n in range(count))]

    def __call__(self, draw: random.Random) -> int:
        return bisect.bisect(self.sums, draw.random() * self.sums[-1])


# BlindW


def read_all(keys: Sequence[str], client: Any) -> None:
    for key in keys:
        client.get(key)


def write_all(keys: Sequence[str], client: Any) -> None:
    for key in keys:
        client.put(key, None)


class BlindW(Workload):
    """Read-only and write-only transactions of eight operations, each on its own key of 10,000.
    RM: nine in ten only read; RW: half of them; RR: all, after each key was written once."""

    KEYS, OPERATIONS = 10_000, 8

    def __init__(self, letters: str, reads: float) -> None:
        self.name, self.reads = f"BlindW-{letters}", reads

    def rows(self) -> dict[str, Any]:
        return {str(key): None for key in range(self.KEYS)}

    def transactions(self, draw: random.Random, sessions: int) -> Iterator[Transaction]:
        keys = [*self.rows()]
        if self.reads == 1:
            for first in range(0, self.KEYS, self.OPERATIONS):
                yield partial(write_all, keys[first : first + self.OPERATIONS])
        while True:
            only_reads = draw.random() < self.reads
            its = draw.sample(keys, self.OPERATIONS)
            yield partial(read_all if only_reads else write_all, its)


# C-Twitter


def tweet(user: int, client: Any) -> None:
    count = client.get(f"user {user}") + 1
    client.put(f"tweet {user} {count}", None)
    client.put(f"user {user}", count)


def follow(user: int, other: int, follows: bool, client: Any) -> None:
    client.get(f"user {other}")
    followed = client.get(f"follows {user}")
    if follows != (other in followed):
        rest = [one for one in followed if one != other]
        client.put(f"follows {user}", [other, *rest] if follows else rest)


def timeline(user: int, client: Any) -> None:
    for other in client.get(f"follows {user}")[: Twitter.SHOWN]:
        count = client.get(f"user {other}")
        if count:
            client.get(f"tweet {other} {count}")


class Twitter(Workload):
    """A thousand users, drawn by Zipf's law, who tweet (3 in 10), follow and unfollow others (1 in
    10 each), and look at the latest tweets of those whom they follow (half)."""

    name, may_skew = "C-Twitter", True
    USERS, FOLLOWED, SHOWN = 1000, 5, 10

    def rows(self) -> dict[str, Any]:
        users = range(self.USERS)
        follows = {
            f"follows {user}": [(user + at) % self.USERS for at in range(1, self.FOLLOWED + 1)]
            for user in users
        }
        return {**{f"user {user}": 0 for user in users}, **follows}

    def transactions(self, draw: random.Random, sessions: int) -> Iterator[Transaction]:
        zipf = Zipf(self.USERS)
        while True:
            user, share = zipf(draw), draw.random()
            if share < 0.3:
                yield partial(tweet, user)
            elif share < 0.5:
                yield partial(follow, user, zipf(draw), share < 0.4)
            else:
                yield partial(timeline, user)


# C-RUBiS


def register_user(user: str, client: Any) -> None:
    if client.get(f"user {user}") is None:
        client.put(f"user {user}", 0)


def register_item(user: int, item: str, client: Any) -> None:
    client.get(f"user {user}")
    client.put(f"item {item}", [user, 0])


def bid(bidder: int, item: int, client: Any) -> None:
    client.get(f"user {bidder}")
    seller, bids = client.get(f"item {item}")
    client.get(f"user {seller}")  # whose rating a bidder looks at
    client.put(f"bid {item} {bids + 1}", bidder)
    client.put(f"item {item}", [seller, bids + 1])


def comment(author: int, item: int, client: Any) -> None:
    seller, _ = client.get(f"item {item}")
    rating = client.get(f"user {seller}")
    client.put(f"comment {seller} {rating + 1}", author)
    client.put(f"user {seller}", rating + 1)


def view_item(item: int, client: Any) -> None:
    seller, bids = client.get(f"item {item}")
    client.get(f"user {seller}")
    for number in range(bids, max(bids - Rubis.SHOWN, 0), -1):
        client.get(f"bid {item} {number}")


def view_user(user: int, client: Any) -> None:
    rating = client.get(f"user {user}")
    for number in range(rating, max(rating - Rubis.SHOWN, 0), -1):
        client.get(f"comment {user} {number}")


class Rubis(Workload):
    """An auction with 2,000 users and 5,000 items, both drawn by Zipf's law, which are viewed (4
    and 1.5 in 10), bid for (2.5 in 10), commented on (1 in 10) and registered (0.3 and 0.7 in
    10)."""

    name, may_skew = "C-RUBiS", True
    USERS, ITEMS, SHOWN = 2000, 5000, 3

    def rows(self) -> dict[str, Any]:
        users = {f"user {user}": 0 for user in range(self.USERS)}
        items = {f"item {item}": [item % self.USERS, 0] for item in range(self.ITEMS)}
        return {**users, **items}

    def transactions(self, draw: random.Random, sessions: int) -> Iterator[Transaction]:
        users, items = Zipf(self.USERS), Zipf(self.ITEMS)
        for number in itertools.count():
            user, item, share = users(draw), items(draw), draw.random()
            if share < 0.4:
                yield partial(view_item, item)
            elif share < 0.55:
                yield partial(view_user, user)
            elif share < 0.8:
                yield partial(bid, user, item)
            elif share < 0.9:
                yield partial(comment, user, item)
            elif share < 0.97:
                yield partial(register_item, user, f"new {number}")
            else:
                yield partial(register_user, f"new {number}")


# C-TPCC. Columns that no one transaction needs together are keys of their own, so that new orders
# and payments meet as little as in rows of columns.


def new_order(at: int, district: int, customer: int, lines: Sequence[Any], client: Any) -> None:
    here = f"{at} {district}"
    client.get(f"warehouse {at}")
    client.get(f"district {here}")
    client.get(f"customer {here} {customer}")
    number = client.get(f"next {here}")
    client.put(f"next {here}", number + 1)
    client.put(f"order {here} {number}", [customer, [item for item, _ in lines]])
    client.put(f"last {here} {customer}", number)
    for item, supplier in lines:
        client.get(f"price {item}")
        left = client.get(f"stock {supplier} {item}")
        client.put(f"stock {supplier} {item}", left - 1 if left > 10 else left + 90)


def payment(at: int, district: int, owner: Sequence[int], number: int, client: Any) -> None:
    for key in (f"taken {at}", f"taken {at} {district}", "balance {} {} {}".format(*owner)):
        client.put(key, client.get(key) + 1)
    client.put(f"history {number}", None)


def order_status(at: int, district: int, customer: int, client: Any) -> None:
    here = f"{at} {district}"
    client.get(f"customer {here} {customer}")
    client.get(f"balance {here} {customer}")
    last = client.get(f"last {here} {customer}")
    if last is not None:
        client.get(f"order {here} {last}")


def delivery(at: int, client: Any) -> None:
    for district in range(Tpcc.DISTRICTS):
        here = f"{at} {district}"
        number = client.get(f"delivered {here}")
        order = client.get(f"order {here} {number}")
        if order is None:
            continue
        client.put(f"delivered {here}", number + 1)
        client.put(f"carrier {here} {number}", at)
        balance = f"balance {here} {order[0]}"
        client.put(balance, client.get(balance) - 1)


def stock_level(at: int, district: int, client: Any) -> None:
    here, items = f"{at} {district}", set()
    number = client.get(f"next {here}")
    for each in range(max(number - Tpcc.SHOWN, 0), number):
        items |= {*client.get(f"order {here} {each}")[1]}
    for item in sorted(items):
        client.get(f"stock {at} {item}")


class Tpcc(Workload):
    """TPC-C with 8 warehouses of 10 districts, 30 customers a district and 1,000 items: 45 in 100
    are new orders, 43 payments, and 4 each order status, delivery and stock level. Each session has
    its own warehouse, as TPC-C's terminals have."""

    name = "C-TPCC"
    WAREHOUSES, DISTRICTS, CUSTOMERS, ITEMS, SHOWN = 8, 10, 30, 1000, 5

    def rows(self) -> dict[str, Any]:
        rows: dict[str, Any] = {f"price {item}": 1 for item in range(self.ITEMS)}
        for at in range(self.WAREHOUSES):
            rows.update({f"warehouse {at}": None, f"taken {at}": 0})
            rows.update({f"stock {at} {item}": 50 for item in range(self.ITEMS)})
            for district in range(self.DISTRICTS):
                here = f"{at} {district}"
                rows.update({f"district {here}": None, f"taken {here}": 0})
                rows.update({f"next {here}": 0, f"delivered {here}": 0})
                for customer in range(self.CUSTOMERS):
                    rows[f"customer {here} {customer}"] = None
                    rows[f"balance {here} {customer}"] = 0
        return rows

    def transactions(self, draw: random.Random, sessions: int) -> Iterator[Transaction]:
        for number in itertools.count():
            at = number % sessions % self.WAREHOUSES
            district, share = draw.randrange(self.DISTRICTS), draw.random()
            customer = draw.randrange(self.CUSTOMERS)
            if share < 0.45:
                items = sorted(draw.sample(range(self.ITEMS), draw.randint(5, 15)))
                lines = [(item, self.supplier(draw, at)) for item in items]
                yield partial(new_order, at, district, customer, lines)
            elif share < 0.88:
                owner = (at, district, customer)
                if draw.random() < 0.15:  # of another warehouse
                    owner = (draw.randrange(self.WAREHOUSES), *owner[1:])
                yield partial(payment, at, district, owner, number)
            elif share < 0.92:
                yield partial(order_status, at, district, customer)
            elif share < 0.96:
                yield partial(delivery, at)
            else:
                yield partial(stock_level, at, district)

    def supplier(self, draw: random.Random, at: int) -> int:
        return draw.randrange(self.WAREHOUSES) if draw.random() < 0.01 else at


# Elle's list-append


def operate(operations: Sequence[Any], client: Any) -> None:
    for key, element in operations:
        if element is None:
            client.get(key)
        else:
            client.append(key, element)


class ListAppend(Workload):
    """Transactions of one to four operations, half of them reads of whole lists, half appends of
    elements that are each used once. 64 keys at a time are drawn evenly; one that got 32 elements
    is replaced by a new key."""

    name, may_skew, has_lists = "list-append", True, True
    KEYS, LONGEST, MOST, ROWS = 64, 4, 32, 8192

    def rows(self) -> dict[str, Any]:
        """Empty lists: a row that isn't there is locked with its neighbours."""
        return {f"list {key}": [] for key in range(self.ROWS)}

    def transactions(self, draw: random.Random, sessions: int) -> Iterator[Transaction]:
        active, following = [*range(self.KEYS)], self.KEYS
        counts = [0] * self.KEYS  # of the elements of each active key
        while True:
            operations: list[Any] = []
            for _ in range(draw.randint(1, self.LONGEST)):
                place = draw.randrange(self.KEYS)
                key, element = f"list {active[place]}", None
                if draw.random() < 0.5:
                    counts[place] += 1
                    element = counts[place]
                operations.append((key, element))
                if counts[place] == self.MOST:
                    active[place], counts[place], following = following, 0, following + 1
            yield partial(operate, operations)


WORKLOADS = {
    one.name: one
    for one in (
        BlindW("RM", 0.9), BlindW("RW", 0.5), BlindW("RR", 1.0),
        Twitter(), Rubis(), Tpcc(), ListAppend(),
    )
}


def dealt(workload: Workload, seed: int, count: int, sessions: int) -> Iterator[Transaction]:
    """The first `count` transactions."""
    draw = random.Random(f"{workload.name} {seed}")
    return itertools.islice(workload.transactions(draw, sessions), count)
