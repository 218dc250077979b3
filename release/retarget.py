#!/usr/bin/env python3
"""Turns an LLVM module that Rattle lowered for x86-64 into the one that it would lower for wasm64.

    retarget.py FROM.ll TO.ll

Both targets have little-endian words of 64 bits and the same layout of data, and Rattle lowers the same
code for them, but for three things, which are done here:

- the data layout, the triple, and the processor with what it may call;
- on wasm64 each function first looks whether the stack has room;
- on wasm64 each export is wrapped, so that it traps from the first trap on: a host could else call again
  over memory that a call has left half written.

A module with what isn't known here ends it with status 1 and a message. release/web_test compares what is
made by way of this script with what Rattle makes for wasm64 itself.
"""

import re
import sys

LAYOUT = "e-m:e-p:64:64-p10:8:8-p20:8:8-i64:64-i128:128-n32:64-S128-ni:1:10:20"
TRIPLE = "wasm64-unknown-unknown"
PROBE = '"probe-stack"="inline-asm" "stack-probe-size"="3072"'
PROCESSOR = f'"no-builtin-bcmp" "no-builtin-memcmp" "no-builtin-strlen" {PROBE} "target-cpu"="lime1"'
X86_PROCESSOR = re.compile(rf'{PROBE} "target-cpu"="[\w-]+"')

# The groups of attributes that are added have numbers that no module of Rattle's reaches.
BODY_GROUP = 9000
GUARD_GROUP = 9001
FIRST_EXPORT_GROUP = 9002
DECLARED = f"""declare ptr @llvm.frameaddress.p0(i32 immarg)
declare void @llvm.trap()
declare noundef zeroext i1 @__rattle_enter() #{GUARD_GROUP}
declare void @__rattle_leave() #{GUARD_GROUP}
declare void @__rattle_trap() #{GUARD_GROUP}
attributes #{GUARD_GROUP} = {{ nounwind }}
attributes #{BODY_GROUP} = {{ noinline nounwind {PROCESSOR} }}
"""

EXPORT = re.compile(r"define (?P<marks>(?:(?:noundef|zeroext|signext) )*)(?P<result>\S+|\{[^}]*\}) "
                    r"@(?P<name>\w+)\((?P<parameters>.*)\) (?P<rest>#\d+.*)$")
WRAPPER = """define {head} @{name}({parameters}) #{group} {{
start:
  %r0 = call i1 @__rattle_enter()
  br i1 %r0, label %spent, label %run

spent:
  call void @__rattle_trap()
  unreachable

run:
  {gives}call {result} @"rattle::export {name}"({passed})
  call void @__rattle_leave()
  ret {answer}
}}

"""
STACK_CHECK = """  %stack.frame = call ptr @llvm.frameaddress.p0(i32 0)
  %stack.at = ptrtoaddr ptr %stack.frame to i64
  %stack.none = icmp slt i64 %stack.at, 16
  br i1 %stack.none, label %stack.over, label %stack.room

stack.room:
"""
STACK_OVER = """
stack.over:
  call void @llvm.trap()
  unreachable
"""
STORED_PARAMETER = re.compile(r"  store \S+ %a\d+, ")


class Unknown(Exception):
    """Something in the module that isn't known here."""


def prologue(lines):
    """How many lines of a function come before its own code: room for what it holds, and its parameters."""
    end = next(i for i, line in enumerate(lines) if i > 1 and (line == "\n" or line.startswith("}")))
    at = 1 + max((i for i in range(end) if " = alloca " in lines[i]), default=1)
    while at < end:
        if STORED_PARAMETER.match(lines[at]):
            at += 1
        elif " = getelementptr i8, ptr %" in lines[at] and STORED_PARAMETER.match(lines[at + 1]):
            at += 2
        else:
            break
    return at


def checked(lines):
    """An inner function that first looks whether the stack has room."""
    if any(" phi " in line for line in lines):
        raise Unknown(f"a function with a phi: {lines[0]}")
    at = prologue(lines)
    return [*lines[:at], STACK_CHECK, *lines[at:-1], STACK_OVER, lines[-1]]


def wrapped(lines, group):
    """The name of an export; and the export, with its body as a function that it calls."""
    found = EXPORT.match(lines[0])
    if not found:
        raise Unknown(f"an export of another form: {lines[0]}")
    name, result, parameters = found["name"], found["result"], found["parameters"]
    marks = found["marks"].strip()
    if result in ("i1", "i8", "i16") and "zeroext" not in marks:
        marks += " zeroext"
    is_void = result == "void"
    wrapper = WRAPPER.format(
        head=f"{marks} {result}", name=name, parameters=parameters, group=group, result=result,
        passed=re.sub(r"\b(noundef|zeroext|signext) ", "", parameters),
        gives="" if is_void else "%r1 = ", answer="void" if is_void else f"{result} %r1")
    rest = re.sub(r"#\d+", f"#{BODY_GROUP}", found["rest"], count=1)
    head = f'define internal {marks} {result} @"rattle::export {name}"({parameters}) {rest}\n'
    return name, [wrapper, head, *lines[1:]]


def outside(line):
    """A line that belongs to no function."""
    if line.startswith("target datalayout"):
        return f'target datalayout = "{LAYOUT}"\n'
    if line.startswith("target triple"):
        return f'target triple = "{TRIPLE}"\n'
    if line.startswith("attributes "):
        return X86_PROCESSOR.sub(PROCESSOR, line)
    if line.startswith("declare") and ("@llvm.frameaddress" in line or "@llvm.trap()" in line):
        return ""
    return line


def retargeted(lines):
    """The module's lines for wasm64."""
    exports = []
    body = []
    for line in lines:
        if not body and not line.startswith("define "):
            yield outside(line)
            continue
        body.append(line)
        if not line.startswith("}"):
            continue
        if body[0].startswith("define internal "):
            yield from checked(body)
        else:
            name, made = wrapped(body, FIRST_EXPORT_GROUP + len(exports))
            exports.append(name)
            yield from made
        body = []
    yield DECLARED
    for group, name in enumerate(exports, FIRST_EXPORT_GROUP):
        yield f'attributes #{group} = {{ nounwind {PROCESSOR} "wasm-export-name"="{name}" }}\n'


def main():
    source, to = sys.argv[1:]
    with open(source, encoding="utf-8") as given:
        text = "".join(retargeted(given))
    if "x86-64" in text:
        raise Unknown("something of x86-64 is left")
    with open(to, "w", encoding="utf-8") as made:
        made.write(text)


if __name__ == "__main__":
    try:
        main()
    except Unknown as fault:
        sys.exit(f"retarget: {fault}")
