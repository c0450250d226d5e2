"""tests/small_card.py CALL < what readelf -SWr says of the library's object: who calls the compiler's library for a product or a quotient.

Every function has a section of its own, and a call leaves a relocation in it. Ends with status 1 where something that CALL comes to needs a multiplication or
a division."""
import re
import sys

# products and quotients of the compiler's library, as __muldi3, __udivdi3, __umoddi3
HELPER = re.compile(r"__(mul|u?div|u?mod|u?divmod)[sdt]i[34]$")


def read(lines):
    """The functions that have code, and for each the names of those it calls."""
    calls, of = {}, None
    for line in lines:
        code = re.match(r"\s*\[ *\d+\] \.text\.(\S+)\s+PROGBITS", line)
        if code:
            calls.setdefault(code.group(1), set())
        section = re.match(r"Relocation section '\.rela\.(?:text\.)?(\S+)' at", line)
        if section:
            of = section.group(1)
        call = re.search(r"R_RISCV_CALL\S*\s+\S+\s+(\S+) \+ 0", line)
        if call:
            calls[of].add(call.group(1))
    return calls


def reached(calls, start):
    """All that a function comes to, itself too."""
    seen, left = set(), [start]
    while left:
        name = left.pop()
        if name not in seen:
            seen.add(name)
            left += calls.get(name, ())
    return seen


def main(call):
    calls = read(sys.stdin)
    if call not in calls:
        sys.exit(f"there is no code of {call}")
    outside = sorted({name for names in calls.values() for name in names if name not in calls})
    for helper in filter(HELPER.match, outside):
        print(f"{helper}: called by {', '.join(sorted(f for f in calls if helper in calls[f]))}")
    print(f"called outside the library: {', '.join(outside)}")
    wrong = sorted(filter(HELPER.match, reached(calls, call)))
    if wrong:
        sys.exit(f"{call} comes to {', '.join(wrong)}")
    print(f"{call} comes to {len(reached(calls, call))} functions, none of which multiplies or divides")


main(*sys.argv[1:])
