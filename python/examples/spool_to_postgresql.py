"""Brings the records of a gateway's spool into PostgreSQL, each exactly once. On Debian it needs python3-psycopg2.

    spool_to_postgresql.py DIR CONSUMER DATABASE [ADDRESS..]

CONSUMER was added to the spool in DIR by `amqp spool add`. DATABASE is as psql takes it: `dbname=shop`. A message to one of the addresses
becomes a row of the table of that name, any other one of `messages`. In the same transaction the number of the last is noted.
"""

from __future__ import annotations

import sys
from datetime import datetime, timezone

import psycopg2
from psycopg2 import sql
from psycopg2.extras import execute_values
from wuleshomia import Spool, SpoolRecord

OTHERS = "messages"
COLUMNS = "spool text, number bigint, arrived timestamptz, container text, link text, address text, tag bytea, message bytea"
MAKE = sql.SQL("create table if not exists {} (" + COLUMNS + ", primary key (spool, number))")


def text(name: str | None) -> str | None:
    """A peer's text as PostgreSQL takes it: in UTF-8, without zeros."""
    return name and name.replace("\0", "?").encode(errors="replace").decode()


def row(r: SpoolRecord) -> tuple[object, ...]:
    arrived = datetime.fromtimestamp(r.time / 1000, timezone.utc)
    return (r.spool, r.number, arrived, text(r.container), text(r.link), text(r.address), r.tag, r.message)


def store(database: psycopg2.extensions.connection, records: list[SpoolRecord], tables: list[str]) -> None:
    spool, rows = records[-1].spool, {}
    with database, database.cursor() as cursor:
        cursor.execute("insert into spool_position values (%s, 0) on conflict do nothing", (spool,))
        cursor.execute("select number from spool_position where spool = %s for update", (spool,))
        (last,) = cursor.fetchone()
        for record in records:
            if record.number > last:
                rows.setdefault(record.address if record.address in tables else OTHERS, []).append(row(record))
        for table, values in rows.items():
            execute_values(cursor, sql.SQL("insert into {} values %s").format(sql.Identifier(table)).as_string(cursor), values)
        cursor.execute("update spool_position set number = greatest(number, %s) where spool = %s", (records[-1].number, spool))


directory, consumer, database_name, *addresses = sys.argv[1:]
database = psycopg2.connect(database_name)
with database, database.cursor() as cursor:
    cursor.execute("create table if not exists spool_position (spool text primary key, number bigint)")
    for table in (*addresses, OTHERS):
        cursor.execute(MAKE.format(sql.Identifier(table)))
with Spool(directory, consumer=consumer) as spool:
    while records := spool.take():
        store(database, records, addresses)
        spool.ack(records[-1].number)
