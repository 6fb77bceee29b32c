"""Short readers of each format, with which the results of an import are compared. They also accept
files that are no history; refusing those is the import's job."""
import csv
import json
import re

from zanteyard.imports._recording import ABORTED, COMMITTED, UNKNOWN

from .recordings import Made

OUTCOMES = {"ok": COMMITTED, "fail": ABORTED, "info": UNKNOWN}


def json_of_edn(text):
    """EDN that consists only of maps, vectors, keywords, whole numbers, nil and plain strings, as
    JSON."""
    text = re.sub(r"(?m);.*$", "", text.replace(",", " ")).replace("#{", "[")
    open_, parts = [], []
    for part in re.findall(r'"[^"\\]*"|[\[\]{}]|:[^\s\[\]{}"]+|[^\s\[\]{}"]+|\S', text):
        if part in "[{":
            open_.append([part, []])
            continue
        if part in "]}":
            kind, its = open_.pop()
            if kind == "[":
                found = its
            else:
                found = dict(zip(its[::2], its[1::2]))
                if len(found) * 2 != len(its):
                    raise ValueError("a map")
        elif part[0] == '"':
            found = json.dumps(part[1:-1])
        elif part == "nil":
            found = None
        elif part[0] == ":":
            found = part
        else:
            found = int(part)
        (open_[-1][1] if open_ else parts).append(found)
    if open_:
        raise ValueError("an end is missing")
    return parts[0] if len(parts) == 1 and isinstance(parts[0], list) else parts


def jepsen_of(operations, colon):
    """The attempts of clients, by process, in a file in which `colon` precedes words."""
    found, open_ = [], {}

    def name(word):
        return word[len(colon) :] if word.startswith(colon) else word

    def text(value):
        if value is None or isinstance(value, list):
            return value
        return json.dumps(value) if not colon and isinstance(value, str) else str(value)

    for one in operations:
        process = one[f"{colon}process"]
        if process == f"{colon}nemesis":
            continue
        type = name(one[f"{colon}type"])
        micros = [
            (name(f), text(key), [*map(text, value)] if isinstance(value, list) else text(value))
            for f, key, value in one.get(f"{colon}value") or []
        ]
        if type == "invoke":
            open_[process] = Made(process, UNKNOWN, micros)
            found.append(open_[process])
        else:
            made = open_.pop(process)
            made.outcome = OUTCOMES[type]
            made.micros = micros if type == "ok" else made.micros
    return found


def read_edn(text):
    return jepsen_of(json_of_edn(text), ":")


def read_json(text):
    if text.lstrip().startswith("["):
        return jepsen_of(json.loads(text), "")
    found, text = [], text.strip()
    while text:
        one, end = json.JSONDecoder().raw_decode(text)
        found.append(one)
        text = text[end:].strip()
    return jepsen_of(found, "")


def read_dbcop(text):
    whole = json.loads(text)
    return [
        Made(session, COMMITTED if one["success"] else ABORTED, [
            ("w" if it["write"] else "r", json.dumps(it["variable"]),
             None if it["value"] in (0, None) else json.dumps(it["value"]))
            for it in one["events"]
        ])
        for session, its in enumerate(whole["data"] if isinstance(whole, dict) else whole)
        for one in its
    ]


def read_polysi(text):
    found, of = [], {}
    for line in filter(None, map(str.strip, text.split("\n"))):
        f, *numbers = re.fullmatch(r"(.)\((.*),(.*),(.*),(.*)\)", line).groups()
        key, value, session, number = map(str, map(int, numbers))
        if (session, number) not in of:
            of[session, number] = Made(session, COMMITTED, [])
            found.append(of[session, number])
        of[session, number].micros.append((f, key, None if value == "0" else value))
    return found


def read_csv(text):
    found, of = [], {}
    for row in csv.DictReader(text.split("\n")):
        name = row["session"], row["number"]
        if name not in of:
            of[name] = Made(name[0], COMMITTED, [])
            found.append(of[name])
        if row["operation"] in ("read", "write"):
            of[name].micros.append((row["operation"][0], row["key"], row["value"] or None))
        else:
            of[name].outcome = {"commit": COMMITTED, "abort": ABORTED, "unknown": UNKNOWN}[
                row["operation"]
            ]
    return found
