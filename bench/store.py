"""The keeper's statements, write-ahead log and full sync by Python's sqlite3, in ./office.db.

    store.py        loads all rows, ordered
"""
import sqlite3

TABLES = """
CREATE TABLE IF NOT EXISTS setup (id INTEGER PRIMARY KEY CHECK (id = 1), body TEXT NOT NULL) STRICT;
CREATE TABLE IF NOT EXISTS ballot (number INTEGER PRIMARY KEY, fate INTEGER NOT NULL, detail TEXT NOT NULL) STRICT;
CREATE TABLE IF NOT EXISTS stage (step INTEGER PRIMARY KEY, detail TEXT NOT NULL) STRICT;
CREATE TABLE IF NOT EXISTS claim (number INTEGER PRIMARY KEY, ballot INTEGER NOT NULL, race INTEGER NOT NULL, code INTEGER NOT NULL) STRICT;
CREATE TABLE IF NOT EXISTS done (station INTEGER NOT NULL, number INTEGER NOT NULL, act TEXT NOT NULL, PRIMARY KEY (station, number)) STRICT;
CREATE TABLE IF NOT EXISTS voided (number INTEGER PRIMARY KEY) STRICT;
"""
SELECTIONS = (
    "SELECT id, body FROM setup ORDER BY id",
    "SELECT number, fate, detail FROM ballot ORDER BY number",
    "SELECT step, detail FROM stage ORDER BY step",
    "SELECT number, ballot, race, code FROM claim ORDER BY number",
    "SELECT station, number, act FROM done ORDER BY station, number",
    "SELECT number FROM voided ORDER BY number",
)


def opened():
    connection = sqlite3.connect("office.db", isolation_level=None)
    connection.execute("PRAGMA journal_mode = WAL")
    connection.execute("PRAGMA synchronous = FULL")
    for statement in TABLES.split("\n"):
        if statement:
            connection.execute(statement)
    return connection


def main():
    connection = opened()
    lists = [connection.execute(selection).fetchall() for selection in SELECTIONS]
    print(f"{len(lists[1])} ballots, {len(lists[4])} done")


if __name__ == "__main__":
    main()
