"""The scripts that `compare.py` times, line by line, so that it never holds a whole one."""

# The most names that a directory gets, so that none would be split in a later stage either.
NAMES = 8000


def names(count):
    """So many distinct places of a name, with directories that are filled one after another, in no order of names."""
    for k in range(count):
        yield 1 + k // NAMES, f"f{k * 2654435761 % 2**32}"


def creates(count):
    for directory, name in names(count):
        yield f"call 1 create {directory} {name}\n"


def inserts(count):
    """The same as SQL, each create a transaction of its own, and at the end how many rows there are."""
    yield ("CREATE TABLE entries (dir INTEGER, name TEXT, mode INTEGER, size INTEGER, PRIMARY KEY (dir, name)) "
           "WITHOUT ROWID;\n")
    for directory, name in names(count):
        yield f"BEGIN; INSERT INTO entries VALUES ({directory}, '{name}', 420, 0); COMMIT;\n"
    yield "SELECT count(*) FROM entries;\n"


def mixed(count):
    """Calls of 8 clients in the cycle create, lookup, setattr, remove, each followed by `settle`. Clients and names are
    drawn by chance, of an eighth as many names as calls in 64 directories, so about half of the names are there."""
    state, drawn = 7, count // 8
    assert drawn <= 64 * NAMES
    for k in range(count):
        state = (state * 6364136223846793005 + 1442695040888963407) % 2**64
        client, name = 1 + (state >> 33) % 8, (state >> 36) % drawn
        verb = ("create", "lookup", "setattr", "remove")[k % 4]
        numbers = f" 384 {k}" if verb == "setattr" else ""
        yield f"call {client} {verb} {1 + name % 64} f{name}{numbers}\nsettle\n"
