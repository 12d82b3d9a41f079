"""Random candidates, many at once: means beside Python's own division, and what compare finds beside what was changed, over records and over sheets.
many.py [rounds]; the last line says 'N passed, M failed'."""
import csv, io, os, random, subprocess, sys

SEED = int(os.environ.get("CURLEW_SEED") or 3737)
ROUNDS = int(sys.argv[1]) if len(sys.argv) > 1 else 40
NAMES = ["number", "name", "written", "oral", "steno", "strip"]
LAYOUT = "a6 A12 Su Su I b10"
STARTS = [0, 6, 18, 20, 22, 26, 28]
dice = random.Random(SEED)
wrong = []


def check(name, good, *shown):
    if not good:
        wrong.append(name)
        print("FAILED  ", name, *map(repr, shown))


def curlew(*arguments, stdin=b"", status=0):
    done = subprocess.run(["curlew", *arguments], input=stdin, stdout=subprocess.PIPE, stderr=subprocess.PIPE)
    check("status", done.returncode == status, arguments, done)
    return done.stdout


def table(rows):
    lines = io.StringIO()
    csv.writer(lines).writerows([NAMES] + rows)
    return lines.getvalue().encode()


def rows_of(text):
    return list(csv.DictReader(io.StringIO(text.decode(), newline="")))


def mark(index):
    return dice.choice([0, 1, 65535, 1000000 if index == 4 else 100, dice.randint(0, 100)])


def value(index):
    if index == 0:
        return "C%05d" % dice.randint(0, 99999)
    if index == 1:
        return "".join(dice.choice("abc XYZ,'\"é") for _ in range(dice.randint(1, 6))).strip() or "n"
    if index == 5:
        return "".join(dice.choice("01") for _ in range(10))
    return mark(index)


def means(rows):
    """Over sheets, over the table, and, where nothing is missing, over records."""
    legs = [[row[i] for i in (2, 3, 4)] for row in rows]
    sheets = curlew("sheet", "write", "--csv", LAYOUT, stdin=table(rows))
    ways = [("--legs", "2-4", "-"), ("--input", "csv", LAYOUT, "--legs", "written,oral,steno", "-")]
    told = [rows_of(curlew("mean", "--csv", *ways[0], stdin=sheets)), rows_of(curlew("mean", "--csv", *ways[1], stdin=table(rows)))]
    if all(cell != "" for row in rows for cell in row):
        records = curlew("pack", "--csv", LAYOUT, stdin=table(rows))
        told.append(rows_of(curlew("mean", "--csv", "--records", LAYOUT, "--legs", "2-4", "-", stdin=records)))
    for one in told:
        check("a row each", [int(row["number"]) for row in one] == list(range(len(rows))), one)
        for row, candidate in zip(one, legs):
            marked = [leg for leg in candidate if leg != ""]
            check("not marked", int(row["legs not marked"]) == 3 - len(marked), row, candidate)
            if marked:
                check("mean", float(row["mean"]) == sum(marked) / len(marked), row, candidate)
            else:
                check("no mean", row["mean"] == "no leg marked", row, candidate)


def changed(rows, holes):
    """A copy in which some cells are others, and which they are."""
    copy, places = [list(row) for row in rows], {}
    for _ in range(dice.randint(0, 4)):
        record, field = dice.randrange(len(rows)), dice.randrange(len(NAMES))
        new = "" if holes and dice.random() < 0.3 else value(field)
        if (record, field) not in places and str(new) != str(rows[record][field]):
            copy[record][field] = new
            places[record, field] = (rows[record][field], new)
    return copy, places


def compared(rows):
    copy, places = changed(rows, False)
    one, two = (curlew("pack", "--csv", LAYOUT, stdin=table(t)) for t in (rows, copy))
    open("one.rec", "wb").write(one)
    open("two.rec", "wb").write(two)
    found = rows_of(curlew("compare", "--records", "--different", "--csv", LAYOUT, "one.rec", "two.rec", status=1 if places else 0))
    check("what differs", {(int(r["record"]), int(r["field"])) for r in found} == set(places), found, places)
    for row in found:
        record, field = int(row["record"]), int(row["field"])
        at = next(i for i in range(STARTS[field], STARTS[field + 1]) if one[28 * record + i] != two[28 * record + i])
        check("the byte of the record", int(row["byte"]) == at, row)
        check("both values", (row["first"], row["second"]) == tuple(map(str, places[record, field])), row, places)


def compared_sheets(rows):
    copy, places = changed(rows, True)
    for name, t in (("one.sheets", rows), ("two.sheets", copy)):
        open(name, "wb").write(curlew("sheet", "write", "--csv", LAYOUT, stdin=table(t)))
    found = rows_of(curlew("compare", "--sheets", "--different", "--csv", "one.sheets", "two.sheets", status=1 if places else 0))
    check("what differs in sheets", {(int(r["sheet"]), int(r["entry"])) for r in found} == set(places), found, places)
    for row in found:
        first, second = map(str, places[int(row["sheet"]), int(row["entry"])])
        verdict = "second copy only" if first == "" else "first copy only" if second == "" else "different"
        check("verdict", (row["verdict"], row["first"], row["second"]) == (verdict, first, second), row)


failed = 0
for _ in range(ROUNDS):
    wrong.clear()
    candidates = [[value(i) for i in range(len(NAMES))] for _ in range(dice.randint(1, 8))]
    with_holes = [[cell if dice.random() < 0.8 else "" for cell in row] for row in candidates]
    means(candidates)
    means(with_holes)
    compared(candidates)
    compared_sheets(with_holes)
    failed += bool(wrong)
print(f"{ROUNDS - failed} passed, {failed} failed")
sys.exit(failed != 0)
