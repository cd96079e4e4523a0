"""The rows of a store's file, read and written as SQLite has them (share/man/tokend-store.5)."""
import sqlite3
import struct

CLASS, VALUE, TRUSTED, WRAP_WITH_TRUSTED, PRIVATE = 0x0, 0x11, 0x86, 0x210, 0x2
SECRET_KEY = struct.pack(">Q", 4)


def rows(path):
    """The tables' definitions, the record's body, and the id and body of each object."""
    with sqlite3.connect(f"file:{path}?mode=ro&immutable=1", uri=True) as it:
        tables = [sql for (sql,) in it.execute("SELECT sql FROM sqlite_master WHERE sql IS NOT NULL AND name NOT LIKE 'sqlite_%'")]
        (record,) = it.execute("SELECT body FROM record").fetchone()
        return tables, record, it.execute("SELECT id, body FROM objects ORDER BY id").fetchall()


def write(path, tables, record, objects):
    """A new store with these rows. Its pages have no sums, as older ones had none, and it needs no log."""
    it = sqlite3.connect(path)
    with it:
        for sql in tables:
            it.execute(sql)
        it.execute("INSERT INTO record (body) VALUES (?)", (record,))
        it.executemany("INSERT INTO objects (id, body) VALUES (?, ?)", objects)
    it.close()


def entries(body):
    """The attributes of an object's body, by their types."""
    found, at = {}, 3
    for _ in range(struct.unpack(">H", body[1:3])[0]):
        kind, length = struct.unpack(">II", body[at:at + 8])
        found[kind] = body[at + 8:at + 8 + length]
        at += 8 + length
    assert at == len(body), "bytes are left"
    return found


def body_of(form, attributes):
    """The body of an object with these attributes in a format."""
    parts = b"".join(struct.pack(">II", kind, len(value)) + value for kind, value in sorted(attributes.items()))
    return struct.pack(">BH", form, len(attributes)) + parts
