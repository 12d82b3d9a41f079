"""A file of records of 25 bytes as tab-separated text, by Python's struct: command.py FILE. Prints what `curlew read --records 25 --tsv --long` prints."""
import struct
import sys

RECORD = struct.Struct(">6s12sHHHb")
ROWS = "{0}\t0\ta6\t0\t{1}\n{0}\t1\tA12\t6\t{2}\n{0}\t2\tSu\t18\t{3}\n{0}\t3\tSu\t20\t{4}\n{0}\t4\tSu\t22\t{5}\n{0}\t5\tc\t24\t{6}\n"


def main():
    out = sys.stdout
    out.write("record\tfield\ttype\tbyte\tvalue\n")
    number = 0
    with open(sys.argv[1], "rb") as file:
        while True:
            run = file.read(2000 * RECORD.size)
            if not run:
                break
            rows = []
            for code, name, written, oral, steno, grade in RECORD.iter_unpack(run):
                rows.append(ROWS.format(number, code.decode("ascii"), name.rstrip(b" \0").decode("ascii"), written, oral, steno, grade))
                number += 1
            out.write("".join(rows))


main()
