#!/usr/bin/env python3
"""Prints each recursion of the program, read off its disassembly: the functions that call one another in a circle, with
the bytes of stack that each takes (what it pushes and subtracts, with the return address). Calls through pointers aren't
seen. Needs objdump.

bench/recursions.py [PROGRAM]"""
import os
import re
import subprocess
import sys

TOP = os.path.join(os.path.dirname(os.path.abspath(__file__)), "..")
HEAD = re.compile(r"^[0-9a-f]+ <(.+)>:$")
CALL = re.compile(r"\t(?:call|j[a-z]+)\s+[0-9a-f]+ <(.+?)(\+0x[0-9a-f]+)?>$")
TAKES = re.compile(r"\tsub\s+\$0x([0-9a-f]+),%rsp")


def functions(program):
    """For each function its bytes of stack and the functions that it calls."""
    text = subprocess.run(["objdump", "-d", "--no-show-raw-insn", program], capture_output=True, text=True,
                          check=True).stdout
    found, name = {}, None
    for line in text.splitlines():
        head = HEAD.match(line)
        if head:
            name = head.group(1)
            found[name] = [8, set()]
            continue
        if name is None:
            continue
        if re.search(r"\tpush\s", line):
            found[name][0] += 8
        takes = TAKES.search(line)
        if takes:
            found[name][0] += int(takes.group(1), 16)
        call = CALL.search(line)
        if call and call.group(2) is None and (call.group(1) != name or "call" in line):
            found[name][1].add(call.group(1))
    return found


def circles(found):
    """The sets of functions that reach one another, by Tarjan's algorithm without recursion."""
    number, low, stack, held = {}, {}, [], set()
    for root in found:
        if root in number:
            continue
        work = [(root, iter(sorted(found[root][1])))]
        number[root] = low[root] = len(number)
        stack.append(root)
        held.add(root)
        while work:
            name, calls = work[-1]
            for callee in calls:
                if callee not in found:
                    continue
                if callee not in number:
                    number[callee] = low[callee] = len(number)
                    stack.append(callee)
                    held.add(callee)
                    work.append((callee, iter(sorted(found[callee][1]))))
                    break
                if callee in held:
                    low[name] = min(low[name], number[callee])
            else:
                work.pop()
                if work:
                    low[work[-1][0]] = min(low[work[-1][0]], low[name])
                if low[name] == number[name]:
                    circle = []
                    while True:
                        member = stack.pop()
                        held.discard(member)
                        circle.append(member)
                        if member == name:
                            break
                    if len(circle) > 1 or name in found[name][1]:
                        yield circle


def main():
    program = sys.argv[1] if len(sys.argv) > 1 else os.path.join(TOP, "crates/soyc/out/soyc")
    found = functions(program)
    for circle in sorted(circles(found), key=lambda names: -sum(found[name][0] for name in names)):
        print("%d bytes in all:" % sum(found[name][0] for name in circle))
        for name in sorted(circle, key=lambda name: -found[name][0]):
            print("  %6d  %s" % (found[name][0], name))
    return 0


if __name__ == "__main__":
    sys.exit(main())
