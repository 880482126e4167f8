"""What statements of SQL mean over a history: plain lists and filters, no index is read to find a row.

A history is a list of transactions, each a list of entries (key, value), where the value of a deletion is None. Statements are
the trees of tools/sql-texts. `answer(history, n, statement)` gives the rows, the entries to be written with their
preconditions, nothing, or the first error; `unkept(history, n)` the first transaction after which the keys that begin with
octet 00 aren't SQL's.
"""

import collections

TYPES = ["integer", "boolean", "varchar", "blob"]
KEY_LIMIT, ROW_LIMIT, ENTRIES = 1024, 4096, 1024
Column = collections.namedtuple("Column", "name kind width not_null")
Table = collections.namedtuple("Table", "tid name columns key")
Index = collections.namedtuple("Index", "iid unique columns")
Live = collections.namedtuple("Live", "value tx")


class Refused(Exception):
    """The first error of a statement."""


class NotText(Exception):
    """A key or a value isn't one that SQL writes."""


def number(value, size):
    return value.to_bytes(size, "big")


# ---- what a history holds


def live(history, n, prefix):
    """The live keys that begin with a prefix after the first n transactions, by key."""
    found = {}
    for tx, entries in enumerate(history[:n], 1):
        for key, value in entries:
            if key.startswith(prefix):
                found[key] = Live(value, tx)
    return {key: at for key, at in sorted(found.items()) if at.value is not None}


def versions(history, n, prefix):
    """All versions of the keys that begin with a prefix, by key, each key's oldest first."""
    found = {}
    for tx, entries in enumerate(history[:n], 1):
        for key, value in entries:
            if key.startswith(prefix):
                found.setdefault(key, []).append(Live(value, tx))
    return dict(sorted(found.items()))


# ---- texts


def value_text(kind, value):
    if value is None:
        return b"\0"
    if kind == "integer":
        return b"\1" + number(value + 2**63, 8)
    if kind == "boolean":
        return b"\1" + number(int(value), 1)
    return b"\1" + value.replace(b"\0", b"\0\xff") + b"\0\0"


def row_text(columns, row):
    return b"".join(value_text(column.kind, value) for column, value in zip(columns, row, strict=True))


class Text:
    """Octets read from the left."""

    def __init__(self, octets):
        self.octets, self.at = octets, 0

    def take(self, size):
        if self.at + size > len(self.octets):
            raise NotText
        self.at += size
        return self.octets[self.at - size : self.at]

    def number(self, size):
        return int.from_bytes(self.take(size), "big")

    def end(self):
        if self.at != len(self.octets):
            raise NotText

    def value(self, kind):
        mark = self.number(1)
        if mark > 1:
            raise NotText
        if mark == 0:
            return None
        if kind == "integer":
            return self.number(8) - 2**63
        if kind == "boolean":
            truth = self.number(1)
            if truth > 1:
                raise NotText
            return truth == 1
        octets = bytearray()
        while (octet := self.number(1)) or (behind := self.number(1)):
            if octet == 0 and behind != 0xFF:
                raise NotText
            octets.append(octet)
        return bytes(octets)

    def row(self, columns):
        row = [self.value(column.kind) for column in columns]
        self.end()
        return row


def table_key(name):
    return b"\0\1" + name.encode()


def index_key(tid, iid):
    return b"\0\2" + number(tid, 4) + number(iid, 4)


def mark_key(tid):
    return b"\0\3" + number(tid, 4)


def rows_prefix(tid):
    return b"\0\4" + number(tid, 4)


def key_columns(table):
    return [table.columns[place] for place in table.key]


def key_text(table, row):
    return row_text(key_columns(table), [row[place] for place in table.key])


def table_text(table):
    columns = b"".join(
        number(len(name), 1) + name.encode() + number(TYPES.index(kind) + 1, 1) + number(width, 2) + number(int(not_null), 1)
        for name, kind, width, not_null in table.columns
    )
    return number(table.tid, 4) + number(len(table.columns), 2) + columns + places_text(table.key)


def places_text(places):
    return number(len(places), 2) + b"".join(number(place, 2) for place in places)


def index_text(index):
    return number(int(index.unique), 1) + places_text(index.columns)


def is_name(octets, keywords):
    text = octets.decode("latin-1")
    plain = all(c in "abcdefghijklmnopqrstuvwxyz0123456789_" for c in text)
    return 1 <= len(text) <= 48 and plain and text[0].isalpha() and text.upper() not in keywords


def read_places(text, width):
    places = [text.number(2) for _ in range(text.number(2))]
    if not places or len(set(places)) < len(places) or max(places) >= width:
        raise NotText
    return places


def read_table(key, value, keywords):
    name, text = key[2:], Text(value)
    tid, columns = text.number(4), []
    for _ in range(text.number(2)):
        of, kind, width, not_null = text.take(text.number(1)), text.number(1), text.number(2), text.number(1)
        if not is_name(of, keywords) or not 1 <= kind <= 4 or not_null > 1 or not (1 <= width <= 1024 if kind > 2 else width == 0):
            raise NotText
        columns.append(Column(of.decode(), TYPES[kind - 1], width, not_null == 1))
    places = read_places(text, len(columns))
    text.end()
    distinct = len({column.name for column in columns}) == len(columns)
    if not is_name(name, keywords) or not 1 <= len(columns) <= 64 or not distinct or tid == 0:
        raise NotText
    return Table(tid, name.decode(), columns, places)


# ---- the catalogue, rows, index entries


def catalogue(history, n, keywords):
    """The tables after n transactions, by name."""
    tables = [read_table(key, at.value, keywords) for key, at in live(history, n, b"\0\1").items()]
    return {table.name: table for table in tables}


def indexes(history, n, table):
    """The table's indexes, by rising number."""
    prefix, found = b"\0\2" + number(table.tid, 4), []
    for key, at in live(history, n, prefix).items():
        text = Text(at.value)
        unique = text.number(1) == 1
        found.append(Index(int.from_bytes(key[6:], "big"), unique, read_places(text, len(table.columns))))
    return found


def rows(history, n, table):
    """The live rows by primary key."""
    return [Text(at.value).row(table.columns) for at in live(history, n, rows_prefix(table.tid)).values()]


def revisions(history, n, table):
    """Each row that a version of a row key shows, with the version's number behind it; a deletion takes one, and shows none."""
    found = []
    for _, many in versions(history, n, rows_prefix(table.tid)).items():
        found += [Text(at.value).row(table.columns) + [count] for count, at in enumerate(many, 1) if at.value is not None]
    return found


def entry_of(table, index, row):
    """An index's key and value for a row."""
    columns = [table.columns[place] for place in index.columns]
    front = number(table.tid, 4) + number(index.iid, 4) + row_text(columns, [row[place] for place in index.columns])
    key = key_text(table, row)
    return (b"\0\6" + front, key) if index.unique else (b"\0\5" + front + key, b"")


# ---- conditions


class Scope:
    """What names of columns stand for."""

    def __init__(self, table, with_revision):
        self.columns = list(table.columns)
        if with_revision:
            self.columns.append(Column("_rev", "integer", 0, True))
        self.places = {column.name: place for place, column in enumerate(self.columns)}

    def place(self, name):
        if name not in self.places:
            raise Refused(f"column {name}")
        return self.places[name]

    def kind(self, operand):
        if operand[0] == "column":
            return self.columns[self.place(operand[1])].kind
        return literal_kind(operand)

    def judge(self, condition):
        """The first fault of a condition, from the left."""
        match condition:
            case "all":
                pass
            case ["any" | "all" | "not", *parts]:
                for part in parts:
                    self.judge(part)
            case ["is-null" | "is-not-null", name]:
                self.place(name)
            case ["compare", left, _, at, right]:
                kinds = {self.kind(left), self.kind(right)} - {None}
                if len(kinds) == 2:
                    raise Refused(f"compare {at}")

    def value(self, operand, row):
        return row[self.place(operand[1])] if operand[0] == "column" else literal(operand)

    def holds(self, condition, row):
        match condition:
            case "all":
                return True
            case ["any", *parts]:
                return any(self.holds(part, row) for part in parts)
            case ["all", *parts]:
                return all(self.holds(part, row) for part in parts)
            case ["not", part]:
                return not self.holds(part, row)
            case ["is-null", name]:
                return row[self.place(name)] is None
            case ["is-not-null", name]:
                return row[self.place(name)] is not None
            case ["compare", left, operator, _, right]:
                a, b = rank(self.value(left, row)), rank(self.value(right, row))
                return {"=": a == b, "<>": a != b, "<": a < b, "<=": a <= b, ">": a > b, ">=": a >= b}[operator]


def rank(value):
    """NULL equals itself and is below all."""
    return (0,) if value is None else (1, value)


def literal_kind(operand):
    if operand == "null":
        return None
    return "boolean" if operand in ("true", "false") else {"integer": "integer", "text": "varchar", "blob": "blob"}[operand[0]]


def literal(operand):
    if operand == "null":
        return None
    if operand in ("true", "false"):
        return operand == "true"
    return operand[1] if operand[0] == "integer" else bytes.fromhex(operand[1][2:])


# ---- statements


def table_named(history, n, name, keywords):
    found = catalogue(history, n, keywords).get(name)
    if found is None:
        raise Refused(f"table {name}")
    return found


def select(history, n, statement, keywords):
    _, chosen, name, source, period, which, order, limit, offset = statement
    at = {"before": lambda k: k - 1, "until": lambda k: k}[period[0]](period[1]) if period != "now" else n
    table = table_named(history, min(at, n), name, keywords)
    scope = Scope(table, source == "history")
    if chosen != "*":
        for column in chosen[1:]:
            scope.place(column)
    scope.judge(which)
    for column, _ in order[1:]:
        scope.place(column)
    if at > n:
        raise Refused(f"beyond {n}")
    found = revisions(history, at, table) if source == "history" else rows(history, at, table)
    found = [row for row in found if scope.holds(which, row)]
    for column, way in reversed(order[1:]):
        place = scope.place(column)
        found.sort(key=lambda row: rank(row[place]), reverse=way == "desc")
    found = found[0 if offset == "none" else offset[1] :]
    found = found[: None if limit == "none" else limit[1]]
    places = range(len(scope.columns)) if chosen == "*" else [scope.place(column) for column in chosen[1:]]
    return "rows", [[(scope.columns[place].kind, row[place]) for place in places] for row in found]


def first_twice(names):
    for place, name in enumerate(names):
        if name in names[:place]:
            raise Refused(f"twice {name}")


def known(columns, names):
    """Their places: first each has to be there, then none twice."""
    all_names = [column.name for column in columns]
    for name in names:
        if name not in all_names:
            raise Refused(f"column {name}")
    first_twice(names)
    return [all_names.index(name) for name in names]


def create_table(history, n, statement, keywords):
    _, name, when, (_, *given), (_, *key) = statement
    tables = catalogue(history, n, keywords)
    if name in tables:
        if when == "always":
            raise Refused(f"exists {name}")
        return ("none",)
    first_twice([column[0] for column in given])
    columns = [
        Column(of, kind if isinstance(kind, str) else kind[0], 0 if isinstance(kind, str) else kind[1], null == "not-null")
        for of, kind, null in given
    ]
    places = known(columns, key)
    table = Table(len(tables) + 1, name, columns, places)
    entries = {b"\0\0": number(table.tid, 4), table_key(name): table_text(table)}
    return "write", entries, [b"\0\0", table_key(name)]


def create_index(history, n, statement, keywords):
    _, name, unique, (_, *given) = statement
    table = table_named(history, n, name, keywords)
    places = known(table.columns, given)
    if rows(history, n, table):
        raise Refused(f"rows {name}")
    iid = len(indexes(history, n, table)) + 1
    key = index_key(table.tid, iid)
    return "write", {key: index_text(Index(iid, unique == "unique", places))}, [key, mark_key(table.tid)]


class Writing:
    """A table while a statement writes it: what stands of its keys before it, and what it has written."""

    def __init__(self, history, n, table):
        self.table, self.indexes, self.written = table, indexes(history, n, table), {}
        self.before = live(history, n, b"\0")

    def stands(self, key):
        """The live entry of a key, with transaction 0 where the statement wrote it."""
        if key in self.written:
            value = self.written[key]
            return None if value is None else Live(value, 0)
        return self.before.get(key)

    def row_key(self, row):
        return rows_prefix(self.table.tid) + key_text(self.table, row)

    def drop(self, row):
        for key in [self.row_key(row), *(entry_of(self.table, index, row)[0] for index in self.indexes)]:
            self.written[key] = None

    def put(self, row):
        old = self.stands(self.row_key(row))
        if old is not None:
            self.drop(Text(old.value).row(self.table.columns))
        self.written[self.row_key(row)] = row_text(self.table.columns, row)
        self.written.update(entry_of(self.table, index, row) for index in self.indexes)

    def judge(self, i, row, is_insert):
        """The faults of a row that is NULL only where it may be, and whose values fit their columns."""
        keys = [self.row_key(row), *(entry_of(self.table, index, row)[0] for index in self.indexes)]
        if any(len(key) > KEY_LIMIT for key in keys):
            raise Refused(f"keylong {i}")
        if len(row_text(self.table.columns, row)) > ROW_LIMIT:
            raise Refused(f"rowlong {i}")
        met = self.stands(keys[0])
        if is_insert and met is not None:
            raise Refused(f"duplicate {i} tx {met.tx}")
        for index in self.indexes:
            key, value = entry_of(self.table, index, row)
            met = self.stands(key) if index.unique else None
            if met is not None and met.value != value:
                raise Refused(f"unique {i} {index.iid} tx {met.tx}")

    def done(self):
        entries = dict(self.written)
        entries[mark_key(self.table.tid)] = b""
        if len(entries) > ENTRIES:
            raise Refused(f"toomany {len(entries)}")
        unique = [b"\0\6" + number(self.table.tid, 4) + number(index.iid, 4) for index in self.indexes if index.unique]
        touched = [key for key in self.written if key.startswith((rows_prefix(self.table.tid), *unique))]
        return "write", entries, [*touched, index_key(self.table.tid, len(self.indexes) + 1)]


def fitting(i, table, places, values):
    """Row i in table order; a column that isn't given is NULL."""
    given = dict(zip(places, values, strict=True))
    row = []
    for place, column in enumerate(table.columns):
        operand = given.get(place, "null")
        kind, value = literal_kind(operand), literal(operand)
        if kind is not None and kind != column.kind:
            raise Refused(f"type {i} {column.name}")
        if column.kind in ("varchar", "blob") and value is not None and len(value) > column.width:
            raise Refused(f"long {i} {column.name}")
        if value is None and (column.not_null or place in table.key):
            raise Refused(f"null {i} {column.name}")
        row.append(value)
    return row


def insert(history, n, statement, keywords):
    verb, name, (_, *names), *given = statement
    table = table_named(history, n, name, keywords)
    places = known(table.columns, names)
    for i, (_, *values) in enumerate(given):
        if len(values) != len(names):
            raise Refused(f"count {i} {len(names)} {len(values)}")
    writing = Writing(history, n, table)
    for i, (_, *values) in enumerate(given):
        row = fitting(i, table, places, values)
        writing.judge(i, row, verb == "insert")
        writing.put(row)
    return writing.done()


def delete(history, n, statement, keywords):
    _, name, which = statement
    table = table_named(history, n, name, keywords)
    scope = Scope(table, False)
    scope.judge(which)
    met = [row for row in rows(history, n, table) if scope.holds(which, row)]
    writing = Writing(history, n, table)
    for row in met:
        writing.drop(row)
    return writing.done() if met else ("none",)


KINDS = {
    "create-table": create_table,
    "create-index": create_index,
    "insert": insert,
    "upsert": insert,
    "delete": delete,
    "select": select,
}


def answer(history, n, statement, keywords):
    try:
        return KINDS[statement[0]](history, n, statement, keywords)
    except Refused as error:
        return "error", str(error)


# ---- whether the keys are SQL's


def unkept(history, n, keywords):
    """The first transaction after which they aren't, or None."""
    return next((k for k in range(1, n + 1) if not is_kept(history, k, keywords)), None)


def is_kept(history, n, keywords):
    try:
        judge_kept(history, n, keywords)
    except NotText:
        return False
    return True


def need(condition):
    if not condition:
        raise NotText


def judge_kept(history, n, keywords):
    every = live(history, n, b"\0")
    need(all(key[1:2] and key[1] <= 6 for key in every))
    tables = list(catalogue(history, n, keywords).values())
    count = every.get(b"\0\0")
    need(all(key == b"\0\0" or key[1] != 0 for key in every))
    need(count is None or len(count.value) == 4)
    many = int.from_bytes(count.value, "big") if count else 0
    need(sorted(table.tid for table in tables) == list(range(1, many + 1)))
    for key, many_versions in versions(history, n, b"\0").items():
        if key[1:2] in (b"\1", b"\2"):
            shown = [place for place, at in enumerate(many_versions) if at.value is not None]
            need(not shown or shown[0] == len(many_versions) - 1)
    by_tid = {table.tid: table for table in tables}
    for key in every:
        if key[1] > 1:
            need(len(key) >= 6 and int.from_bytes(key[2:6], "big") in by_tid)
    for table in tables:
        judge_table(history, n, table, every)


def judge_table(history, n, table, every):
    tid = number(table.tid, 4)
    places = sorted(key for key in every if key.startswith(b"\0\2" + tid))
    need(all(len(key) == 10 for key in places))
    need([int.from_bytes(key[6:], "big") for key in places] == list(range(1, len(places) + 1)))
    for key in places:
        text = Text(every[key].value)
        need(text.number(1) <= 1)
        read_places(text, len(table.columns))
        text.end()
    marks = [key for key in every if key.startswith(b"\0\3" + tid)]
    need(all(len(key) == 6 and every[key].value == b"" for key in marks))
    marked = {at.tx for at in versions(history, n, mark_key(table.tid)).get(mark_key(table.tid), [])}
    of, wanted = indexes(history, n, table), {}
    for key, at in live(history, n, rows_prefix(table.tid)).items():
        row = Text(at.value).row(table.columns)
        need(key == rows_prefix(table.tid) + key_text(table, row))
        need(at.tx in marked)
        for index in of:
            entry, value = entry_of(table, index, row)
            need(entry not in wanted)
            wanted[entry] = value
    found = {key: at.value for key, at in every.items() if key[1] in (5, 6) and key[2:6] == tid}
    need(found == wanted)
