"""Writes the statements of the tables as a C header: python3 statements.py > statements.h, from this folder.

Each constant of crates/sqltables/src is there under the name of its table and its own, as DOMAIN_BY_NAME, and its
text in TEXTS, its name in NAMES; the statements that make the tables are the list SCHEMA. OWN are the floor's.
"""
import json
import re
from pathlib import Path

SOURCES = Path(__file__).resolve().parents[2] / "crates" / "sqltables" / "src"
TABLES = ["meta", "account", "contact", "domain", "host", "address", "link", "line", "message", "transfer"]
OWN = [
    ("DOMAIN_AND_REGISTRANT", "SELECT d.id, d.name, d.creator, d.serial, d.sponsor, d.created, d.years, d.transferred, d.updated, d.statuses, "
     "d.secret, d.deleted, d.restore_requested, d.due, c.name FROM domain d JOIN contact c ON c.id = d.registrant WHERE d.name = ?1"),
    ("LINK_MOVE", "UPDATE link SET due = ?2 WHERE domain = ?1"),
    ("BEGIN", "BEGIN"),
    ("COMMIT", "COMMIT"),
]
CONSTANT = re.compile(r'^const ([A-Z_]+): &str =\s*"([^"]*)";', re.M)


def texts_of(file):
    return CONSTANT.findall((SOURCES / f"{file}.rt").read_text())


def show(name, texts):
    print(f"static const char *const {name}[] = {{")
    for text in texts:
        print(f"    {json.dumps(text)},")
    print("};")


def main():
    found = [(f"{table.upper()}_{name}", text) for table in TABLES for name, text in texts_of(table)]
    print("/* written by statements.py */")
    found += OWN
    print("enum statement { " + ", ".join(name for name, _ in found) + ", STATEMENTS };")
    show("TEXTS", [text for _, text in found])
    show("NAMES", [name for name, _ in found])
    # the list of both schemas, with this one's table of lines, and the days
    body = (SOURCES / "schema.rt").read_text()
    named = dict(texts_of("schema"))
    listed = re.findall(r'^ +(?:"(CREATE [^"]*)"|\$line),$', body, re.M)
    show("SCHEMA", [text or named["LINE"] for text in listed] + [named["DAYS"]])


main()
