#!/usr/bin/env python3
"""Asks the built program the same of ranges of keys and of passes over all rows, and looks whether the answers agree.

Tables with keys of one, two and three columns get random rows at random labels. Random conditions C are then asked twice by sessions
at several labels: as `WHERE C`, where literals that bound the key leave a range, and as `WHERE C OR C`, which is as true and never
leaves one. The two have to be answered alike, byte by byte: SELECTs of one table and of two, SELECTs over views, and UPDATE and DELETE
with what they leave, each in a transaction that is rolled back.

    tests/ranges.py [SEED..]       the variable IFDB names another program than crates/ifdb/out/ifdb
"""

from __future__ import annotations

import pathlib
import random
import sys
from typing import List, Tuple

sys.path.append(str(pathlib.Path(__file__).resolve().parents[1] / "clients/python"))
import program  # noqa: E402

SEEDS = range(8)
CONDITIONS = 40
LEAST, GREATEST = -(2**63), 2**63 - 1
# a random key may be there already, and a row that is to change may be at another label
EXPECTED = {b"", b"DuplicateKey", b"WriteLabel"}
LABELS = ["", "x", "y", "x, y", "every"]
# each table's key columns and its other columns, by their kinds
TABLES = {"one": ("i", "it"), "two": ("it", "ii"), "three": ("iti", "t")}


def columns_of(table: str) -> List[Tuple[str, str]]:
    """Each column of a table with its kind."""
    key, others = TABLES[table]
    return [(f"c{at}", kind) for at, kind in enumerate(key + others)]


def literal(rng: random.Random, kind: str) -> str:
    if kind == "t":
        return "'" + rng.choice(["", "a", "aa", "ab", "b", "b''", "é", "z"]) + "'"
    return str(rng.choice([*range(-3, 6), LEAST, LEAST + 1, GREATEST - 1, GREATEST]))


def compared(rng: random.Random, table: str, of: str) -> str:
    """A comparison of a column with a literal, mostly of the key's columns and mostly one that bounds them."""
    columns = columns_of(table)
    reach = len(TABLES[table][0]) if rng.random() < 0.8 else len(columns)
    name, kind = rng.choice(columns[:reach])
    value = "NULL" if rng.random() < 0.03 else literal(rng, kind)
    sides = [of + name, value]
    if rng.random() < 0.3:
        sides.reverse()
    how = rng.choice(["=", "=", "<", "<=", ">", ">=", "<>"])
    return f"{sides[0]} {how} {sides[1]}"


def condition(rng: random.Random, table: str, of: str = "", depth: int = 2) -> str:
    kind = rng.random()
    if depth == 0 or kind < 0.25:
        return compared(rng, table, of)
    parts = [condition(rng, table, of, depth - 1) for _ in range(rng.randint(2, 4))]
    if kind < 0.85:
        return "(" + " AND ".join(parts) + ")"
    if kind < 0.93:
        return "(" + " OR ".join(parts) + ")"
    return f"NOT {parts[0]}"


def beginning(rng: random.Random) -> List[str]:
    """The tables and their rows, and a session at each label."""
    lines = ["OPEN", "1 HELLO admin KEY 'admin'", "1 CREATE COMPOUND TAG every"]
    lines += ["1 CREATE TAG x IN (every)", "1 CREATE TAG y IN (every)"]
    for table, (key, _) in TABLES.items():
        columns = ", ".join(f"{name} {'TEXT' if kind == 't' else 'INT'}" for name, kind in columns_of(table))
        names = ", ".join(f"c{at}" for at in range(len(key)))
        lines.append(f"1 CREATE TABLE {table} ({columns}, PRIMARY KEY ({names}))")
    for label in LABELS[:4]:
        lines.append(f"1 SET LABEL ({label})")
        for table, (key, others) in TABLES.items():
            for _ in range(40):
                values = [literal(rng, kind) for kind in key]
                values += ["NULL" if rng.random() < 0.2 else literal(rng, kind) for kind in others]
                lines.append(f"1 INSERT INTO {table} VALUES ({', '.join(values)})")
    lines.append("1 SET LABEL ()")
    for session, label in enumerate(LABELS, start=2):
        lines += ["OPEN", f"{session} HELLO admin KEY 'admin'", f"{session} SET LABEL ({label})"]
    return lines


def asked(rng: random.Random, number: int) -> List[List[str]]:
    """Lines that ask something of one condition twice: by a range where it leaves one, and by a pass."""
    session, table = rng.randint(2, 1 + len(LABELS)), rng.choice(list(TABLES))
    both = [condition(rng, table)]
    both.append(f"{both[0]} OR {both[0]}")
    kind = rng.random()
    if kind < 0.4:
        return [[f"{session} SELECT * FROM {table} WHERE {it}"] for it in both]
    if kind < 0.6:
        other, inner = rng.choice(list(TABLES)), condition(rng, table, "p.")
        sources = rng.choice([f"{table} AS p, {other} AS q", f"{other} AS q, {table} AS p"])
        both = [f"p.c0 = q.c0 AND ({it})" for it in (inner, f"{inner} OR {inner}")]
        return [[f"{session} SELECT p.c0, LABEL OF p, q.c1, LABEL OF q FROM {sources} WHERE {it}"] for it in both]
    if kind < 0.75:
        return [
            [
                f"1 CREATE VIEW w{number}{way} AS SELECT c0, c1 FROM {table} WHERE {it} WITH DECLASSIFYING (x)",
                f"{session} SELECT LABEL OF w{number}{way}, c0, c1 FROM w{number}{way}",
            ]
            for way, it in zip("rp", both)
        ]
    last = columns_of(table)[-1][0]
    change = rng.choice([f"UPDATE {table} SET {last} = NULL", f"DELETE FROM {table}"])
    return [
        [
            f"{session} BEGIN",
            f"{session} {change} WHERE {it}",
            f"{session} SELECT * FROM {table}",
            f"{session} ROLLBACK",
        ]
        for it in both
    ]


def main() -> None:
    pairs, rows = 0, 0
    for seed in [int(it) for it in sys.argv[1:]] or SEEDS:
        rng = random.Random(seed)
        begin = beginning(rng)
        questions = [asked(rng, number) for number in range(CONDITIONS)]
        script = begin + [line for question in questions for way in question for line in way]
        ran = program.run("run", given="".join(f"{line}\n" for line in script).encode())
        replies = program.replies_of(ran.written)
        assert ran.status == 0 and len(replies) == len(script), f"seed {seed}: {len(replies)} replies to {len(script)} lines"
        for line, reply in zip(script, replies):
            error = reply[0].split()[3:] if b" ERR " in reply[0] else [b""]
            assert error[0] in EXPECTED, f"seed {seed}: {line}: {reply[0].decode()}"
        at = len(begin)
        for by_range, by_pass in questions:
            count = len(by_range)
            first, second = replies[at : at + count], replies[at + count : at + 2 * count]
            if first != second:
                sys.exit(f"ranges.py: seed {seed}: these differ:\n" + "\n".join(by_range + by_pass))
            at, pairs, rows = at + 2 * count, pairs + 1, rows + sum(len(it) - 1 for it in first)
    print(f"ranges.py: {pairs} questions answered alike by ranges and by passes, with {rows} rows")


if __name__ == "__main__":
    main()
