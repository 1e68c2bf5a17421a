"""Times python3-construct on the message on standard input: construct_time.py FORMAT list|list_compiled|times

FORMAT is trace, records or lookups. `list` prints the listing, `list_compiled` the same by a compiled parser. `times` prints
the least nanoseconds of several runs: of parsing, of parsing compiled, of parsing and listing, of parsing compiled and
listing.
"""
import sys
import time

from construct import Array, Flag, IfThenElse, Int8ub, Int16sb, Int16ub, Struct, this

FORMATS = {
    "trace": Struct("n" / Int16ub, "pts" / Array(this.n, Int16sb)),
    "records": Struct(
        "m" / Int16ub,
        "recs" / Array(this.m, Struct("k" / Int8ub, "vals" / Array(this.k, Int16ub))),
    ),
    "lookups": Struct(
        "m" / Int16ub,
        "pad" / Array(this.m, Int8ub),
        "flag" / Flag,
        "items" / Array(this.m, IfThenElse(this.flag, Int8ub, Int16ub)),
    ),
}


def trace_lines(parsed):
    yield "root.n,u16", 2, parsed.n
    for i, value in enumerate(parsed.pts):
        yield f"root.pts[{i}],i16", 2, value & 0xFFFF


def records_lines(parsed):
    yield "root.m,u16", 2, parsed.m
    for i, record in enumerate(parsed.recs):
        yield f"root.recs[{i}].k,u8", 1, record.k
        for j, value in enumerate(record.vals):
            yield f"root.recs[{i}].vals[{j}],u16", 2, value


def lookups_lines(parsed):
    yield "root.m,u16", 2, parsed.m
    for i, value in enumerate(parsed.pad):
        yield f"root.pad[{i}],u8", 1, value
    yield "root.flag,bool", 1, int(parsed.flag)
    word, width = ("u8", 1) if parsed.flag else ("u16", 2)
    for i, value in enumerate(parsed.get("items")):
        yield f"root.items[{i}],{word}", width, value


LINES = {"trace": trace_lines, "records": records_lines, "lookups": lookups_lines}


def listing(name, parse, message):
    message = message[:65535]
    out = ["path,word,place,width,bytes\n"]
    place = 0
    for label, width, value in LINES[name](parse(message)):
        out.append(f"{label},{place},{width},{value:0{2 * width}x}\n")
        place += width
    rest = message[place:]
    out.append(f"rest,-,{place},{len(rest)},{rest.hex() or '-'}\n")
    return "".join(out)


def least_nanoseconds(call, seconds=0.3, runs=3):
    """The least time of a call, over at least so many runs and about so many seconds."""
    least = None
    end = time.perf_counter() + seconds
    while runs > 0 or time.perf_counter() < end:
        start = time.perf_counter_ns()
        call()
        taken = time.perf_counter_ns() - start
        least = taken if least is None else min(least, taken)
        runs -= 1
    return least


def main():
    name, what = sys.argv[1:]
    message = sys.stdin.buffer.read()
    parse = FORMATS[name].parse
    if what == "list":
        sys.stdout.write(listing(name, parse, message))
        return
    compiled = FORMATS[name].compile().parse
    if what == "list_compiled":
        sys.stdout.write(listing(name, compiled, message))
        return
    print(least_nanoseconds(lambda: parse(message)))
    print(least_nanoseconds(lambda: compiled(message)))
    print(least_nanoseconds(lambda: listing(name, parse, message)))
    print(least_nanoseconds(lambda: listing(name, compiled, message)))


main()
