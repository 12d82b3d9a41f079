"""Last year's records read by this year's layout: what nobody marked yet is None and never a 0."""
import curlew

last_year = curlew.Layout("a6 A12 Su Su", names="code name written oral", encoding="utf-8")
this_year = curlew.Layout("a6 A12 Su Su Su", names="code name written oral steno", encoding="utf-8")
assert this_year.extends(last_year)
records = last_year.pack(["C00417", "Ada Lind", 61, 0]) + last_year.pack(["C00418", "Zoë Ek", 52, 88])
for row in this_year.records(records, length=last_year.length):
    print(row.code, row.name, row.written, row.oral, "not marked" if row.steno is None else row.steno)
    print("mean of the marked legs:", curlew.mean(row[2:]).mean)
