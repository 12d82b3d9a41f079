"""Random tables: packed and read, kept as sheets and read, with commas, with tabs and as JSON, the cells are the same; Python's csv and json
make and read them. tables.py [rounds]; the last line says 'N passed, M failed'."""
import csv, io, json, os, random, struct, subprocess, sys

SEED = int(os.environ.get("CURLEW_SEED") or 37)
ROUNDS = int(sys.argv[1]) if len(sys.argv) > 1 else 150
dice = random.Random(SEED)
wrong = []
LETTERS = "abcXYZ019 ,;\"'\n\r\t\\=+-@#_~|éß€好"


def check(name, good, *shown):
    if not good:
        wrong.append(name)
        print("FAILED  ", name, *map(repr, shown))


def curlew(*arguments, stdin=b"", status=0, quiet=True):
    done = subprocess.run(["curlew", *arguments], input=stdin, stdout=subprocess.PIPE, stderr=subprocess.PIPE)
    check("status", done.returncode == status, arguments, stdin, done)
    if quiet:
        check("no word", done.stderr == b"", arguments, stdin, done)
    return done.stdout


def text(most):
    """A text of no more bytes, without blanks at its end."""
    value = "".join(dice.choice(LETTERS) for _ in range(dice.randint(0, most))).rstrip(" ")
    while len(value.encode()) > most:
        value = value[:-1].rstrip(" ")
    return value


def integer(size, unsigned):
    low, high = (0, 2**size - 1) if unsigned else (-(2 ** (size - 1)), 2 ** (size - 1) - 1)
    return dice.choice([low, high, 0, dice.randint(low, high)])


def real(single):
    if single:
        return struct.unpack(">f", struct.pack(">I", dice.choice([0x3dcccccd, 0x80000000, 1, 0x7f7fffff, dice.getrandbits(31) % 0x7f800000])))[0]
    return struct.unpack(">d", struct.pack(">Q", dice.choice([0, 1 << 63, 1, dice.getrandbits(63) % 0x7ff0000000000000])))[0]


def column():
    """A field, and what makes a value of it: a text, or a list of numbers."""
    kind = dice.choice("aAbBhHcsSiIwWrRqQ")
    count = dice.choice([None, dice.randint(1, 9)])
    length = 1 if count is None else count
    field = kind + ("" if count is None else str(count))
    if kind in "aA":
        count = dice.randint(1, 20)
        return f"{kind}{count}", lambda: text(count)
    if kind in "bB":
        return field, lambda: "".join(dice.choice("01") for _ in range(length))
    if kind in "hH":
        return field, lambda: "".join(dice.choice("0123456789abcdef") for _ in range(length))
    if kind in "rRqQ":
        return field, lambda: [real(kind in "rR") for _ in range(length)]
    unsigned = dice.random() < 0.5
    size = 8 * {"c": 1, "s": 2, "i": 4, "w": 8}[kind.lower()]
    return kind + ("u" if unsigned else "") + field[1:], lambda: [integer(size, unsigned) for _ in range(length)]


def cell(value):
    """As it stands in a cell of CSV; None is not marked."""
    if value is None or isinstance(value, str):
        return value
    return " ".join(map(repr, value))


def line(values):
    cells = []
    for value in map(cell, values):
        if value is None:
            cells.append("")
        elif value == "" or any(c in value for c in ',"\r\n') or dice.random() < 0.3:
            cells.append('"' + value.replace('"', '""') + '"')
        else:
            cells.append(value)
    return ",".join(cells) + dice.choice(["\n", "\r\n"])


def member(field, value):
    if value is None or isinstance(value, str):
        return value
    return value if any(c.isdigit() for c in field) else value[0]


def numbers(cells, fields):
    """Numbers as numbers, so that 1e-05 and 0.00001 are the same; an empty cell is None."""
    made = []
    for field, shown in zip(fields, cells):
        if shown == "" or field[0] in "aAbBhH":
            made.append(shown)
        elif field[0] in "rR":
            made.append([struct.pack(">f", float(v)) for v in shown.split()])
        elif field[0] in "qQ":
            made.append([struct.pack(">d", float(v)) for v in shown.split()])
        else:
            made.append([int(v) for v in shown.split()])
    return made


def same_table(name, table, fields, names, rows):
    """The table with commas that was written, beside the rows that it was made of."""
    read = list(csv.reader(io.StringIO(table.decode(), newline="")))
    check(name + ": head", read[:1] == [names], read)
    wanted = [numbers(["" if value is None else cell(value) for value in row], fields) for row in rows]
    check(name + ": cells", [numbers(row, fields) for row in read[1:]] == wanted, read, rows)


def same_json(name, lines, fields, names, rows):
    read = [json.loads(one) for one in lines.decode().split("\n")[:-1]]
    wanted = [{n: member(f, v) for n, f, v in zip(names, fields, row)} for row in rows]

    def exact(row):
        return {n: struct.pack(">f", v) if f in "rR" and isinstance(v, float) else repr(v) if f[0] not in "rR" else
                [struct.pack(">f", x) for x in v] if isinstance(v, list) else v for (n, v), f in zip(row.items(), fields)}
    check(name, [exact(r) for r in read] == [exact(r) for r in wanted], read, wanted)


def one_round():
    columns = [column() for _ in range(dice.randint(1, 9))]
    fields = [field for field, _ in columns]
    layout = " ".join(fields)
    names = [f"{dice.choice('nmwo é')}{i}" for i in range(len(fields))]
    rows = [[make() for _, make in columns] for _ in range(dice.randint(0, 6))]
    listed = ",".join(names)
    order = list(range(len(fields)))
    dice.shuffle(order)

    head = [names[i] for i in order]
    table = (line(head) + "".join(line([row[i] for i in order]) for row in rows)).encode()
    if dice.random() < 0.2:
        table = b"\xef\xbb\xbf" + table
    records = curlew("pack", "--csv", "--names", listed, layout, stdin=table)
    same_table("records", curlew("read", "--csv", "--names", listed, layout, stdin=records), fields, names, rows)
    for form in ("--csv", "--tsv", "--json"):
        written = curlew("read", form, "--names", listed, layout, stdin=records)
        if rows or form != "--json":
            check("there and back " + form, curlew("pack", form, layout, "--names", listed, stdin=written) == records, layout, written)
            check("by its own names " + form, curlew("pack", form, layout, stdin=written) == records, layout, written)
    same_json("records as JSON", curlew("read", "--json", "--names", listed, layout, stdin=records), fields, names, rows)
    guarded = curlew("read", "--csv", "--for-spreadsheet", "--names", listed, layout, stdin=records)
    check("for a spreadsheet", curlew("pack", "--csv", "--for-spreadsheet", "--names", listed, layout, stdin=guarded) == records, guarded)
    for row in list(csv.reader(io.StringIO(guarded.decode(), newline="")))[1:]:
        check("no formula", all(shown[:1] not in tuple("=+-@") for f, shown in zip(fields, row) if f[0] in "aA"), row)

    holes = [[None if dice.random() < 0.3 else value for value in row] for row in rows]
    table = (line(head) + "".join(line([row[i] for i in order]) for row in holes)).encode()
    sheets = curlew("sheet", "write", "--csv", "--names", listed, layout, stdin=table)
    same_table("sheets", curlew("sheet", "read", "--csv", "--names", listed, stdin=sheets), fields, names, holes) if len(fields) > 1 else None
    for form in ("--csv", "--tsv", "--json"):
        written = curlew("sheet", "read", form, "--names", listed, stdin=sheets)
        if rows or form != "--json":
            again = curlew("sheet", "write", form, layout, "--names", listed, stdin=written)
            check("sheets there and back " + form, again == sheets, layout, written)
    marked = [all(value is not None for value in row) for row in holes]
    if not all(marked) and any(marked):
        failed = subprocess.run(["curlew", "pack", "--csv", "--names", listed, layout], input=table, stdout=subprocess.PIPE, stderr=subprocess.PIPE)
        check("no record for what is not marked", failed.returncode == 1 and failed.stdout == b"" and b"not marked" in failed.stderr, table, failed)


failed = 0
for _ in range(ROUNDS):
    wrong.clear()
    one_round()
    failed += bool(wrong)
print(f"{ROUNDS - failed} passed, {failed} failed")
sys.exit(failed != 0)
