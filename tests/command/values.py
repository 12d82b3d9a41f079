"""Random layouts and values: pack, read, layout, sheets and compare beside Python's struct. values.py [rounds]; the last line says 'N passed, M failed'."""
import json, math, os, random, struct, subprocess, sys

SEED = int(os.environ.get("CURLEW_SEED") or 26)
ROUNDS = int(sys.argv[1]) if len(sys.argv) > 1 else 250
NUMBERS = {"c": "<b", "s": "<h", "S": ">h", "i": "<i", "I": ">i", "w": "<q", "W": ">q", "r": "<f", "R": ">f", "q": "<d", "Q": ">d"}
dice = random.Random(SEED)
wrong = []


def check(name, good, *shown):
    if not good:
        wrong.append(name)
        print("FAILED  ", name, *map(repr, shown))


def curlew(*arguments, stdin=b"", status=0):
    done = subprocess.run(["curlew", *arguments], input=stdin, stdout=subprocess.PIPE, stderr=subprocess.PIPE)
    check("status", done.returncode == status, arguments, done)
    return done.stdout


def number(form):
    """A number that the struct format holds, its edges often."""
    kind = form[1]
    if kind in "fd":
        bits = dice.getrandbits(32 if kind == "f" else 64)
        value = struct.unpack(form, struct.pack(form[0] + ("I" if kind == "f" else "Q"), bits))[0]
        return value if math.isfinite(value) else 0.5
    size = 8 * struct.calcsize(form)
    low, high = (0, 2**size - 1) if kind.isupper() else (-(2 ** (size - 1)), 2 ** (size - 1) - 1)
    return dice.choice([low, high, 0, dice.randint(low, high)])


def field():
    """A field, its value as Python has it, and its bytes."""
    kind = dice.choice("aAbBhH" + "".join(NUMBERS))
    count = dice.choice([None, dice.randint(0, 12)])
    length = 1 if count is None else count
    text = kind + ("" if count is None else str(count))
    if kind in "aA":
        value = bytes(dice.choice(b"abcXYZ019@_~\xc3\xa9\x01\xff") for _ in range(length))
        return text, value, value
    if kind in "bBhH":
        base, size = (2, 8) if kind in "bB" else (16, 2)
        digits = [dice.randrange(base) for _ in range(length)]
        filled = digits + [0] * (-length % size)
        groups = [filled[i:i + size] for i in range(0, len(filled), size)]
        raw = bytes(int("".join("%x" % d for d in (g if kind.isupper() else g[::-1])), base) for g in groups)
        return text, "".join("%x" % d for d in digits).encode(), raw
    form = NUMBERS[kind]
    if form[1] in "bhiq" and dice.random() < 0.5:
        form = form.upper()
        text = kind + "u" + text[1:]
    items = [number(form) for _ in range(length)]
    return text, items if count is not None else items[0], b"".join(struct.pack(form, v) for v in items)


def plain(value):
    """A value as it stands after --."""
    if isinstance(value, bytes):
        return value
    return ",".join(map(repr, value if isinstance(value, list) else [value])).encode()


def argument(value):
    return (b"@" if plain(value)[:1] == b"@" else b"") + plain(value)


def shown(entry):
    """The value of a row of JSON: None only where it is not marked."""
    if not entry["marked"]:
        check("null where not marked", entry["value"] is None, entry)
        return None
    if "value_hex" in entry:
        return bytes.fromhex(entry["value_hex"])
    return entry["value"].encode() if isinstance(entry["value"], str) else entry["value"]


def one_round():
    fields = [field() for _ in range(dice.randint(0, 9))]
    layout = dice.choice(["", " "]).join(text for text, _, _ in fields)
    values = [value for _, value, _ in fields]
    record = b"".join(raw for _, _, raw in fields)
    starts = [sum(len(raw) for _, _, raw in fields[:i]) for i in range(len(fields) + 1)]
    arguments = [argument(value) for value in values]

    check("pack", curlew("pack", layout, *arguments) == record, layout, values)
    check("pack, as they are", curlew("pack", "--", layout, *map(plain, values)) == record, layout, values)

    rows = json.loads(curlew("layout", "--json", layout))
    check("layout", rows["values"] == len(fields) and rows["bytes"] == len(record), layout, rows)
    check("first bytes", [row["byte"] for row in rows["fields"]] == starts[:-1], layout, rows)
    check("bytes", [row["bytes"] for row in rows["fields"]] == [len(raw) for _, _, raw in fields], layout, rows)

    cut = dice.choice([len(record), dice.randint(0, len(record))])
    ends = next((i for i in range(len(fields)) if starts[i + 1] > cut), len(fields))
    told = json.loads(curlew("read", "--json", "--long", layout, stdin=record[:cut]))
    kept = [v.rstrip(b" \0") if text[0] == "A" else v for text, v, _ in fields]
    check("read", [shown(row) for row in told["fields"]] == kept[:ends] + [None] * (len(fields) - ends), layout, told, kept)
    check("where", [row["byte"] for row in told["fields"]] == starts[:ends] + [None] * (len(fields) - ends), layout, told)
    check("how many", told["set"] == ends and told["looked_at"] == starts[ends], layout, told)
    check("carried out", told["carried_out"] == min(ends + 1, len(fields)), layout, told)

    holes = [dice.random() < 0.3 or value == [] for value in values]
    sheet = curlew("sheet", "write", layout, *(b"@" if hole else a for hole, a in zip(holes, arguments)))
    entries = [shown(row) for row in json.loads(curlew("sheet", "read", "--json", "--long", stdin=sheet))["entries"]]
    lists = [v if isinstance(v, (bytes, list)) else [v] for v in values]
    check("sheet", entries == [None if hole else v for hole, v in zip(holes, lists)], layout, entries)
    packed = curlew("sheet", "read", "--record", layout, stdin=sheet, status=1 if any(holes) else 0)
    check("sheet to record", packed == (b"" if any(holes) else record), layout)

    open("one.rec", "wb").write(record)
    same = json.loads(curlew("compare", "--json", layout, "one.rec", "one.rec"))
    check("same", same["differences"] == 0 and all(row["verdict"] == "same" for row in same["fields"]), layout, same)
    whole = [i for i, (text, _, raw) in enumerate(fields) if raw and text[0] not in "AbBhHrR"]
    if whole:
        spot = dice.choice(whole)
        other = bytearray(record)
        place = dice.randrange(starts[spot], starts[spot + 1])
        other[place] ^= 1 << dice.randrange(8)
        open("two.rec", "wb").write(other)
        found = json.loads(curlew("compare", "--json", layout, "one.rec", "two.rec", status=1))
        check("different", [row["verdict"] == "different" for row in found["fields"]] == [i == spot for i in range(len(fields))], layout, found)
        check("byte of the record", found["fields"][spot]["byte"] == place, layout, found)


def walk(fields):
    """The highest byte that the rows of `curlew layout --json` reach, an empty value for each star."""
    at = highest = 0
    for row in fields:
        kind, count = row["type"][0], row["count"]
        if kind == "X":
            at = 0 if count == "*" else max(0, at - (1 if count is None else count))
        elif kind == "@":
            at = highest if count == "*" else count
        else:
            check("known first byte", row["byte"] is None or row["byte"] == at, row)
            at += row["bytes"] or 0
        highest = max(highest, at)
    return highest


def moving_layout():
    """Layouts with moves and stars: the rows and the library agree on the length."""
    text = "".join(dice.choice(["aA", "bB", "hH", "csSiIwWrRqQ", "x", "X", "@"][dice.randrange(7)])
                   + dice.choice(["", "u"]) + dice.choice(["3", "0", "17", "", "*"]) for _ in range(dice.randint(1, 12)))
    done = subprocess.run(["curlew", "layout", "--json", text], stdout=subprocess.PIPE, stderr=subprocess.PIPE)
    if done.returncode == 0:
        rows = json.loads(done.stdout)
        check("length with moves", walk(rows["fields"]) == rows["bytes"], text, rows)
        check("values with moves", sum(row["field"] is not None for row in rows["fields"]) == rows["values"], text, rows)


failed = 0
for _ in range(ROUNDS):
    wrong.clear()
    one_round()
    moving_layout()
    failed += bool(wrong)
print(f"{ROUNDS - failed} passed, {failed} failed")
sys.exit(failed != 0)
