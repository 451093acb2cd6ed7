#!/usr/bin/env python3
"""Writes the script by which a database compares printed queries with the output of an example.

    database_script.py DATABASE FOLDER PRINTED

DATABASE is SQLite or PostgreSQL. FOLDER has task.toml and the tables that it names, and PRINTED is what the program
printed. The script makes the tables, runs each query, and writes a line for each that doesn't give the output as a
bag, and else nothing.
"""
import csv
import os
import re
import sys
import tomllib

INTEGER = re.compile(r'0|-?[1-9][0-9]*')

# how each database writes the types of columns: whole numbers of 64 bits, and texts that are compared by their bytes
TYPES = {
    'SQLite': {'integer': 'INTEGER', 'text': 'TEXT'},
    'PostgreSQL': {'integer': 'BIGINT', 'text': 'TEXT COLLATE "C"'},
}


def quoted(name):
    return '"' + name.replace('"', '""') + '"'


def is_integer(field):
    return INTEGER.fullmatch(field) is not None and -(1 << 63) <= int(field) < 1 << 63


def literal(kind, field):
    if field == '':
        return 'NULL'
    return field if kind == 'integer' else "'" + field.replace("'", "''") + "'"


def read_table(path):
    """The names, the types and the rows of a table; a column is of integers where it has some and nothing else."""
    with open(path, encoding='utf-8-sig', newline='') as file:
        header, *rows = [record for record in csv.reader(file) if record]
    kinds = []
    for fields in zip(*rows) if rows else [()] * len(header):
        filled = [field for field in fields if field != '']
        kinds.append('integer' if filled and all(map(is_integer, filled)) else 'text')
    return header, kinds, [[literal(k, f) for k, f in zip(kinds, row)] for row in rows]


def make_table(types, name, names, kinds, rows):
    columns = ', '.join(f'{quoted(n)} {types[kind]}' for n, kind in zip(names, kinds))
    print(f'CREATE TEMP TABLE {quoted(name)} ({columns});')
    for row in rows:
        print(f'INSERT INTO {quoted(name)} VALUES ({", ".join(row)});')


def compare(database, number, query, columns):
    """Counts the rows that stand more often on one side; a query of another number of columns is an error."""
    def counted(table):
        return f'SELECT {columns}, count(*) FROM {table} GROUP BY {columns}'

    print(f'WITH given_rows({columns}) AS ({query}), differences AS (')
    print(f'SELECT * FROM ({counted("given_rows")} EXCEPT {counted("wanted_rows")}) AS more UNION ALL')
    print(f'SELECT * FROM ({counted("wanted_rows")} EXCEPT {counted("given_rows")}) AS fewer)')
    print(f"SELECT 'query {number} gives other rows in {database}' WHERE EXISTS (SELECT * FROM differences);")


def main(database, folder, printed):
    types = TYPES[database]
    with open(os.path.join(folder, 'task.toml'), 'rb') as file:
        task = tomllib.load(file)
    for table in task['input']:
        make_table(types, table['name'], *read_table(os.path.join(folder, table['file'])))
    names, kinds, rows = read_table(os.path.join(folder, task['output']['file']))
    columns = ['c%d' % (i + 1) for i in range(len(names))]
    make_table(types, 'wanted_rows', columns, kinds, rows)
    with open(printed, encoding='utf-8', newline='') as file:
        for line in file.read().splitlines()[1:]:
            number, query = line.split(': ', 1)
            compare(database, number, query, ', '.join(columns))


main(*sys.argv[1:])
