#!/usr/bin/env bash
# Times SELECTs over two tables of many rows, ours and SQLite's in memory on the same rows, in one run; each is the least
# of five. Run it at the top of the
# repository. Wants `rt`, and python3 with its sqlite3.
set -euo pipefail
cd "$(dirname "${BASH_SOURCE[0]}")/../crates/bench_query"
echo "ours"
rt run -- time | sed 's/^| //' | grep -E '^( |[0-9]+ rows)'
echo "SQLite"
python3 - <<'PYTHON'
import sqlite3
import time

LOOK_UPS = 20000


def once(ask):
    start = time.perf_counter()
    ask()
    return time.perf_counter() - start


def timed(what, ask):
    print(f"  {what}: {round(min(once(ask) for _ in range(5)) * 1e6)} us")


for count in (10000, 100000):
    print(f"{count} rows")
    db = sqlite3.connect(":memory:")
    for table in ("a", "b"):
        db.execute(f"CREATE TABLE {table} (id INTEGER PRIMARY KEY, second INTEGER, third INTEGER)")
        rows = ((i, i % (count // 2), i * 7919 % count) for i in range(count))
        db.executemany(f"INSERT INTO {table} VALUES (?, ?, ?)", rows)

    def all_of(text):
        return lambda: db.execute(text).fetchall()

    def look_ups():
        for i in range(LOOK_UPS):
            db.execute("SELECT third FROM a WHERE id = ?", (i * 7919 % count,)).fetchall()

    timed("scan with a condition and COUNT", all_of(f"SELECT COUNT(*) FROM a WHERE second < {count // 4}"))
    timed("GROUP BY with COUNT and SUM", all_of("SELECT second, COUNT(*), SUM(third) FROM a GROUP BY second"))
    timed("ORDER BY", all_of("SELECT id, third FROM a ORDER BY third"))
    timed("a range of a hundred keys", all_of(f"SELECT third FROM a WHERE id > {count // 2} AND id < {count // 2 + 101}"))
    timed("look-ups of a key", look_ups)
    timed("join on the key", all_of("SELECT a.id, b.id FROM a, b WHERE a.id = b.id"))
    timed("join on another column", all_of("SELECT a.id, b.id FROM a, b WHERE a.third = b.third"))
PYTHON
