"""What the command does where its output is a terminal: colours, the progress line, no bytes. The last line says 'N passed, M failed'."""
import os, pty, subprocess, sys, time

passed = failed = 0


def check(name, good, shown=""):
    global passed, failed
    passed, failed = (passed + 1, failed) if good else (passed, failed + 1)
    if not good:
        print("FAILED  ", name, repr(shown))


def on_terminal(arguments, output=True, errors=True, **environment):
    """Runs it with a terminal as its output and errors, or with a pipe; returns status and what each got."""
    main, side = pty.openpty()
    names = dict({"TERM": "xterm", "PATH": os.environ["PATH"], "LC_ALL": "C"}, **environment)
    asan = {name: value for name, value in os.environ.items() if name.endswith("SAN_OPTIONS")}
    process = subprocess.Popen(["curlew"] + arguments, stdin=subprocess.DEVNULL, env=dict(names, **asan),
                               stdout=side if output else subprocess.PIPE, stderr=side if errors else subprocess.PIPE)
    os.close(side)
    seen = b""
    while True:
        try:
            more = os.read(main, 65536)
        except OSError:
            break
        if not more:
            break
        seen += more
    piped = b"".join(pipe.read() for pipe in (process.stdout, process.stderr) if pipe)
    status = process.wait()
    os.close(main)
    return status, seen.replace(b"\r\n", b"\n"), piped


open("short.rec", "wb").write(b"C00417")
open("long.rec", "wb").write(b"C00417\x00\x07")
layout = "a6 Su"

status, seen, _ = on_terminal(["read", layout, "short.rec"])
check("a field that is not marked has a colour", status == 0 and b"\x1b[33mnot marked\x1b[m\n" in seen, seen)
check("heads are bold", b"\x1b[1mfield\x1b[m" in seen, seen)
_, seen, _ = on_terminal(["read", layout, "short.rec"], NO_COLOR="1")
check("NO_COLOR", b"\x1b" not in seen and b"not marked" in seen, seen)
_, seen, _ = on_terminal(["read", layout, "short.rec"], NO_COLOR="")
check("NO_COLOR that is empty", b"\x1b" in seen, seen)
_, seen, _ = on_terminal(["read", layout, "short.rec"], TERM="dumb")
check("a terminal without colours", b"\x1b" not in seen, seen)
_, seen, piped = on_terminal(["read", layout, "short.rec"], output=False)
check("no colours into a pipe", b"\x1b" not in piped and b"not marked" in piped, piped)
for form in ("--json", "--tsv", "--csv"):
    _, seen, _ = on_terminal(["read", form, layout, "long.rec"])
    check("no colours with " + form, b"\x1b" not in seen, seen)
status, seen, _ = on_terminal(["compare", layout, "long.rec", "short.rec"])
check("what differs has a colour", status == 1 and b"\x1b[31mfirst copy only\x1b[m" in seen, seen)
status, seen, _ = on_terminal(["read", "Zu"])
check("a complaint has a colour", status == 1 and seen.startswith(b"\x1b[1;31mcurlew:\x1b[m layout"), seen)
_, seen, piped = on_terminal(["read", "Zu"], errors=False)
check("a complaint into a pipe has none", piped.startswith(b"curlew: layout"), piped)

status, seen, _ = on_terminal(["pack", layout, "C00417", "7"])
check("no bytes on a terminal", status == 2 and b"-o FILE" in seen and b"C00417" not in seen, seen)
status, seen, _ = on_terminal(["pack", "--hex", layout, "C00417", "7"])
check("bytes in hex on a terminal", status == 0 and b"4330303431370007" in seen, seen)
status, seen, _ = on_terminal(["sheet", "write", layout, "C00417", "7"])
check("no sheet on a terminal", status == 2 and b"terminal" in seen, seen)

subprocess.run(["curlew", "sheet", "write", "Su Su", "4", "@", "-o", "one.sheet"], check=True)
subprocess.run(["curlew", "sheet", "write", "Su Su", "@", "@", "-o", "none.sheet"], check=True)
many = ["one.sheet"] * 30 + ["none.sheet"] * 3 + ["missing.sheet"]
status, seen, piped = on_terminal(["mean"] + many, output=False)
check("a count", status == 2 and b"34 sheets: 30 with a mean, 3 with no leg marked, 1 refused" in seen, seen)
check("no progress line for what is quick", b"\r\x1b[K" not in seen, seen)
check("rows beside it", piped.count(b"\n") == 35 and b"\x1b" not in piped, piped)
status, seen, piped = on_terminal(["mean"] + ["one.sheet"] * 20, output=False)
check("no count for few", status == 0 and seen == b"", seen)
status, seen, piped = on_terminal(["mean"] + many, output=False, errors=False)
check("no count into a pipe", b"of 34" not in piped and b"with a mean" not in piped, piped)


def slowly(arguments, errors_on_terminal):
    """Runs it with records that come one by one, for some three seconds. Returns what its errors got, and when each record came out."""
    main, side = pty.openpty()
    process = subprocess.Popen(["curlew"] + arguments, stdin=subprocess.PIPE, stdout=subprocess.PIPE,
                               stderr=side if errors_on_terminal else subprocess.PIPE)
    os.close(side)
    lines = [process.stdout.readline()]
    for number in range(12):
        process.stdin.write(b"C%05d\x00\x07" % number)
        process.stdin.flush()
        lines.append(process.stdout.readline())
        time.sleep(0.25)
    process.stdin.close()
    process.wait()
    seen = b"" if errors_on_terminal else process.stderr.read()
    while errors_on_terminal:
        try:
            more = os.read(main, 65536)
        except OSError:
            break
        if not more:
            break
        seen += more
    os.close(main)
    return seen, lines


seen, lines = slowly(["read", "--csv", layout], True)
check("each record comes out as it came in", lines == [b"field0,field1\n"] + [b"C%05d,7\n" % n for n in range(12)], lines)
check("a progress line after two seconds", b"\r\x1b[K" in seen and b" records" in seen and b"\r\x1b[K1 records" not in seen, seen)
seen, lines = slowly(["read", "--csv", layout], False)
check("no progress line into a pipe", seen == b"", seen)

status, seen, _ = on_terminal(["show", layout, "short.rec"])
check("show has colours and no brackets", status == 0 and b"\x1b[36m43\x1b[m" in seen and b"[43" not in seen.replace(b"\x1b[", b""), seen)
check("what is missing has a colour", b"\x1b[33mnot marked\x1b[m" in seen, seen)
status, seen, _ = on_terminal(["show", layout, "short.rec", "long.rec"])
check("bytes that differ are turned round", b"\x1b[33;7m00\x1b[m" in seen, seen)

print(f"{passed} passed, {failed} failed")
sys.exit(failed != 0)
