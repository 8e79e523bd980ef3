"""Worked cases: a module in which each form of instruction stands that dist/to_c understands, a header that declares its functions, and a program
that calls each with many numbers and prints what comes back and what is left in memory. LLVM compiles the module to one program,
and dist/to_c and a compiler
of C to others."""

import re

WIDTHS = (8, 16, 24, 32, 56, 64)
TESTS = ("eq", "ne", "ult", "ule", "ugt", "uge", "slt", "sle", "sgt", "sge")
# Numbers that a case is called with: each with each.
NUMBERS = (0, 1, 2, 3, 7, 0x7F, 0x80, 0xFF, 0x7FFF, 0x8000, 0xFFFF, 0x800000, 0xFFFFFF, 0x7FFFFFFF, 0x80000000, 0xFFFFFFFF, 0x100000000)
NUMBERS += (0x123456789ABCDEF0, 0x80000000000000, 0x7FFFFFFFFFFFFFFF, 0x8000000000000000, 0xFFFFFFFFFFFFFFFE, 0xFFFFFFFFFFFFFFFF)


def narrowed(width):
    """The two numbers in so many bits."""
    return [f"%x = trunc i64 %a to i{width}", f"%y = trunc i64 %b to i{width}"] if width < 64 else ["%x = add i64 %a, 0", "%y = add i64 %b, 0"]


def widened(width, name="z"):
    """What a case answers, of so many bits."""
    return [f"%r = zext i{width} %{name} to i64", "ret i64 %r"] if width < 64 else [f"ret i64 %{name}"]


def arithmetic():
    for width in (1, *WIDTHS):
        for name in ("add", "sub", "mul", "and", "or", "xor"):
            yield [*narrowed(width), f"%z = {name} i{width} %x, %y", *widened(width)]
    for width in WIDTHS:
        kind, most = f"i{width}", (1 << width) - 1
        for name in ("udiv", "urem"):
            yield [*narrowed(width), f"%d = or {kind} %y, 1", f"%z = {name} {kind} %x, %d", *widened(width)]
        for name in ("shl", "lshr"):
            yield [*narrowed(width), f"%m = urem {kind} %y, {width}", f"%z = {name} {kind} %x, %m", *widened(width)]
            yield [*narrowed(width), f"%z = {name} {kind} %x, 5", *widened(width)]
        for other in (-1, most >> 1, 100):
            yield [*narrowed(width), f"%z = sub {kind} {other if other < 1 << width - 1 else -1}, %x", *widened(width)]
            yield [*narrowed(width), f"%z = mul {kind} %x, {other if other < 1 << width - 1 else -1}", *widened(width)]


def tests():
    for width in (1, *WIDTHS):
        for test in TESTS:
            yield [*narrowed(width), f"%z = icmp {test} i{width} %x, %y", *widened(1)]
    for test in ("eq", "ne"):
        yield ["%n = and i64 %a, 3", "%p = getelementptr i8, ptr %room, i64 %n", f"%z = icmp {test} ptr %p, %room", *widened(1)]
        yield [f"%z = icmp {test} ptr %room, null", *widened(1)]


def casts():
    for low in (1, *WIDTHS[:-1]):
        for high in (it for it in WIDTHS if it > low):
            for name in ("zext", "sext"):
                yield [*narrowed(low), f"%z = {name} i{low} %x to i{high}", *widened(high)]
            yield [*narrowed(high), f"%z = trunc i{high} %x to i{low}", *widened(low)]


def chosen():
    for width in (1, *WIDTHS):
        yield [*narrowed(width), "%t = icmp ult i64 %a, %b", f"%z = select i1 %t, i{width} %y, i{width} %x", *widened(width)]
        yield [*narrowed(width), f"%z = freeze i{width} %x", *widened(width)]
    yield ["%t = icmp ult i64 %a, %b", "%p = getelementptr i8, ptr %room, i64 9", "%q = select i1 %t, ptr %p, ptr %room",
           "store i8 77, ptr %q, align 1", "ret i64 0"]
    yield ["%p = freeze ptr %room", "store i8 78, ptr %p, align 1", "ret i64 0"]


def known():
    for width in (8, 16, 32, 64):
        kind = f"i{width}"
        for name in ("umin", "umax", "usub.sat"):
            yield [*narrowed(width), f"%z = call {kind} @llvm.{name}.{kind}({kind} %x, {kind} %y)", *widened(width)]
        yield [*narrowed(width), f"%z = call {kind} @llvm.ctlz.{kind}({kind} %x, i1 false)", *widened(width)]
        for way, far in (("l", 5), ("r", 3), ("l", width - 1), ("r", width - 1)):
            yield [*narrowed(width), f"%z = call {kind} @llvm.fsh{way}.{kind}({kind} %x, {kind} %y, {kind} {far})", *widened(width)]
    for width in (16, 32, 64):
        yield [*narrowed(width), f"%z = call i{width} @llvm.bswap.i{width}(i{width} %x)", *widened(width)]


def memory():
    """Reads and writes of each width, at whole places and others."""
    for width in (*WIDTHS, 40, 48):
        for at, align in ((16, 8), (17, 1), (18, 2)):
            place = f"%p = getelementptr inbounds i8, ptr %room, i64 {at}"
            yield [place, *narrowed(width), f"store i{width} %x, ptr %p, align {align}", "ret i64 1"]
            yield [place, f"%z = load i{width}, ptr %p, align {align}", *widened(width)]
    for at, align in ((16, 8), (17, 1)):
        place = f"%p = getelementptr inbounds i8, ptr %room, i64 {at}"
        yield [place, f"store ptr %room, ptr %p, align {align}", f"%q = load ptr, ptr %p, align {align}", "store i8 9, ptr %q, align 1",
               f"%t = icmp eq ptr %q, %room", f"store i64 3, ptr %p, align {align}", *widened(1, "t")]
    # an address has eight bytes, and its number is what they tell
    yield ["store i64 -1, ptr %room, align 8", "store ptr %room, ptr %room, align 8", "%n = load i64, ptr %room, align 8",
           "%q = inttoptr i64 %n to ptr",
           "store i64 4, ptr %q, align 8", "%m = ptrtoint ptr %room to i64", "%w = ptrtoaddr ptr %q to i64", "%d = sub i64 %n, %m",
           "%e = sub i64 %w, %m", "%z = or i64 %d, %e", "ret i64 %z"]
    yield ["store i64 -1, ptr %room, align 8", "store ptr null, ptr %room, align 8", "ret i64 0"]
    for distance in (-3, 0, 12):
        yield ["%p = getelementptr inbounds i8, ptr %room, i64 20", f"%q = getelementptr i8, ptr %p, i64 {distance}",
               "store i8 66, ptr %q, align 1", "ret i64 0"]
    yield ["%p = getelementptr inbounds i8, ptr %room, i64 20", "%n = and i64 %a, 15", "%m = sub i64 0, %n",
           "%q = getelementptr i8, ptr %p, i64 %m", "store i8 67, ptr %q, align 1", "ret i64 0"]


def pairs():
    """Pairs, whole and by their parts, at the places that they have on 64 bits."""
    shorter = (("i8", "i8"), ("i8", "i16"), ("i8", "i32"), ("i8", "i64"), ("i16", "i8"), ("i32", "i8"))
    for first, second in (*shorter, ("i64", "i1"), ("i64", "i64"), ("i1", "i8")):
        kind = f"{{ {first}, {second} }}"
        parts = (("x", "a", first), ("y", "b", second))
        both = [*(f"%{to} = trunc i64 %{of} to {it}" if it != "i64" else f"%{to} = add i64 %{of}, 0" for to, of, it in parts),
        f"%h = insertvalue {kind} poison, {first} %x, 0", f"%w = insertvalue {kind} %h, {second} %y, 1"]
        yield [*both, "%p = getelementptr i8, ptr %room, i64 32",
               f"store {kind} %w, ptr %p, align 8", "ret i64 0"]
        # (what is between the parts is written by neither)
        yield ["store i64 0, ptr %room, align 8", "%p = getelementptr i8, ptr %room, i64 8", "store i64 1, ptr %p, align 8",
               f"%w = load {kind}, ptr %room, align 8",
               f"%z = extractvalue {kind} %w, 1", *widened(int(second[1:]))]
    yield ["%p = getelementptr i8, ptr %room, i64 8", "store ptr %p, ptr %p, align 8", "%w = load { i8, ptr }, ptr %room, align 8",
           "%q = extractvalue { i8, ptr } %w, 1",
           "store i64 %a, ptr %q, align 8", "%z = extractvalue { i8, ptr } %w, 0", *widened(8)]
    yield ["%x = trunc i64 %a to i8", "%w = insertvalue { i8, i8 } { i8 1, i8 poison }, i8 %x, 1", "store { i8, i8 } %w, ptr %room, align 1",
           "ret i64 0"]
    yield ["%w = call { i8, ptr } @pair(i64 %a, ptr %room)", "%q = extractvalue { i8, ptr } %w, 1", "store i8 5, ptr %q, align 1",
           "%z = extractvalue { i8, ptr } %w, 0", *widened(8)]
    yield ["%v = call { i8, i8 } @known(i64 %a)", "%w = freeze { i8, i8 } %v", "%x = extractvalue { i8, i8 } %w, 0",
           "%y = extractvalue { i8, i8 } %w, 1", "%z = sub i8 %x, %y", *widened(8)]


def copies():
    for name in ("memcpy", "memmove"):
        for size in ("5", "16", "%n"):
            yield ["%n = and i64 %a, 31", "%p = getelementptr i8, ptr %room, i64 32",
                   f"call void @llvm.{name}.p0.p0.i64(ptr align 8 %p, ptr align 8 %room, i64 {size}, i1 false)", "ret i64 0"]
    for one, two in ((0, 3), (3, 0)):
        yield ["%n = and i64 %a, 31", f"%p = getelementptr i8, ptr %room, i64 {one}", f"%q = getelementptr i8, ptr %room, i64 {two}",
               "call void @llvm.memmove.p0.p0.i64(ptr %p, ptr %q, i64 %n, i1 false)", "ret i64 0"]
    for size in ("0", "24", "%n"):
        yield ["%n = and i64 %a, 31", "%x = trunc i64 %b to i8", f"call void @llvm.memset.p0.i64(ptr align 8 %room, i8 %x, i64 {size}, i1 false)",
               "ret i64 0"]
    yield ["%n = and i64 %a, 7", "%p = getelementptr i8, ptr @static.1, i64 %n", "%z = load i8, ptr %p, align 1", *widened(8)]
    yield ["%z = load i64, ptr @static.2, align 8", *widened(64)]
    yield ["%z = load i8, ptr getelementptr inbounds nuw (i8, ptr @static.1, i64 2), align 1", *widened(8)]
    yield ["%p = getelementptr i8, ptr @static.1, i64 5", "%n = ptrtoaddr ptr %p to i64", "%z = sub i64 %n, ptrtoaddr (ptr @static.1 to i64)",
           "ret i64 %z"]
    yield ["%w = call { i64, i64 } @rattle_alloc(i64 24, i64 8)", "%g = extractvalue { i64, i64 } %w, 0", "%n = extractvalue { i64, i64 } %w, 1",
           "%p = inttoptr i64 %n to ptr",
           "store i64 %a, ptr %p, align 8", "%z = load i64, ptr %p, align 8", "call void @rattle_dealloc(ptr %p)", "%h = and i64 %g, 255",
           "%s = add i64 %z, %h", "ret i64 %s"]
    yield ["%w = call { i64, i64 } @rattle_alloc(i64 1099511627800, i64 8)", "%g = extractvalue { i64, i64 } %w, 0", "%h = and i64 %g, 255",
           "ret i64 %h"]


def stacks():
    """Places on the stack: one that is alive beside others keeps what it holds."""
    begin, end = (f"call void @llvm.lifetime.{it}.p0(ptr %{{}})" for it in ("start", "end"))
    fill = "call void @llvm.memset.p0.i64(ptr align 8 %{}, i8 {}, i64 16, i1 false)"
    two = ["%p = alloca [16 x i8], align 8", "%q = alloca [16 x i8], align 8"]
    read = ["%x = load i64, ptr %p, align 8", "%y = load i64, ptr %q, align 8", "%z = sub i64 %x, %y", "ret i64 %z"]
    yield [*two, fill.format("p", 1), fill.format("q", 2), *read]
    yield [*two, begin.format("p"), fill.format("p", 1), begin.format("q"), fill.format("q", 2), *read[:3], end.format("p"), end.format("q"),
           "ret i64 %z"]
    # one behind the other: these may share bytes; the third is alive beside both
    yield [*two, "%o = alloca i64, align 8", "store i64 %b, ptr %o, align 8", begin.format("p"), fill.format("p", 1),
           "%x = load i64, ptr %p, align 8", end.format("p"), begin.format("q"),
           fill.format("q", 2), "%y = load i64, ptr %q, align 8", end.format("q"), "%w = load i64, ptr %o, align 8", "%s = sub i64 %x, %y",
           "%z = add i64 %s, %w", "ret i64 %z"]
    # alive on one way to a block
    yield [*two, "%t = icmp ult i64 %a, %b", begin.format("q"), "store i64 9, ptr %q, align 8", "br i1 %t, label %one, label %two", "one:",
           begin.format("p"), "store i64 4, ptr %p, align 8",
           "br label %two", "two:", "%c = phi ptr [ %p, %one ], [ %q, %start ]", "%x = load i64, ptr %c, align 8",
           "%y = load i64, ptr %q, align 8", "%z = add i64 %x, %y", "ret i64 %z"]
    # in a loop: begun at the end of a round, read in the next
    yield [*two, "store i64 0, ptr %q, align 8", begin.format("p"), "store i64 1, ptr %p, align 8", "br label %more", "more:",
           "%i = phi i64 [ 0, %start ], [ %j, %more ]",
           "%x = load i64, ptr %p, align 8", "%y = load i64, ptr %q, align 8", "%s = add i64 %x, %y", "store i64 %s, ptr %q, align 8",
           "store i64 %i, ptr %p, align 8", "%j = add i64 %i, 1",
           "%t = icmp eq i64 %j, 9", "br i1 %t, label %out, label %more", "out:", "%z = load i64, ptr %q, align 8", "ret i64 %z"]
    yield ["%p = alloca i8, align 1", "%q = alloca i32, align 4", "store i8 -1, ptr %p, align 1", "store i32 7, ptr %q, align 4",
           "%x = load i8, ptr %p, align 1", "%y = load i32, ptr %q, align 4",
           "%w = zext i8 %x to i32", "%z = add i32 %w, %y", *widened(32)]


def ways():
    """Branches, and phis that take what others were."""
    yield ["br label %more", "more:", "%x = phi i64 [ %a, %start ], [ %y, %more ]", "%y = phi i64 [ %b, %start ], [ %x, %more ]",
           "%i = phi i64 [ 0, %start ], [ %j, %more ]", "%j = add i64 %i, 1",
           "%t = icmp eq i64 %j, 4", "br i1 %t, label %out, label %more", "out:", "%z = sub i64 %x, %y", "ret i64 %z"]
    yield ["br label %more", "more:", "%x = phi i64 [ %a, %start ], [ %s, %more ]", "%y = phi i64 [ 0, %start ], [ %x, %more ]",
           "%s = add i64 %x, 3", "%t = icmp ugt i64 %s, %y",
           "br i1 %t, label %out, label %more", "out:", "%z = xor i64 %x, %y", "ret i64 %z"]
    yield ["%x = trunc i64 %a to i8", "switch i8 %x, label %other [ i8 0, label %one i8 -1, label %two i8 127, label %one ]".replace(" i8 -1",
           "\n    i8 -1").replace(" i8 127", "\n    i8 127"),
           "one:", "br label %two", "two:", "%y = phi i64 [ 1, %start ], [ 2, %one ]", "ret i64 %y", "other:", "ret i64 3"]
    yield ["switch i64 %a, label %other [ i64 -1, label %same\n    i64 1, label %same\n    i64 4294967295, label %far ]", "same:",
           "%z = phi i64 [ 7, %start ], [ 7, %start ]", "ret i64 %z",
           "far:", "ret i64 8", "other:", "ret i64 9"]
    yield ["%t = icmp eq ptr %room, null", "br i1 %t, label %never, label %goes", "never:", "call void @llvm.trap()", "unreachable", "goes:",
           "%z = phi i64 [ 12, %start ]", "ret i64 %z"]
    yield ["%t = icmp ult i64 %a, %b", "br i1 %t, label %one, label %two", "one:", "br label %two", "two:",
           "%w = phi { i8, i8 } [ { i8 3, i8 1 }, %one ], [ zeroinitializer, %start ]",
           "%x = extractvalue { i8, i8 } %w, 0", "%y = sub i8 %x, 2", "%z = xor i8 %x, %y", *widened(8)]
    yield ["call void @quiet(ptr %room, i64 %a)", "%z = call i64 @many(i64 %a, i8 -1, i16 -2, i32 -3, i1 true, ptr %room)", "ret i64 %z"]


INNER = """@static.1 = private unnamed_addr constant [8 x i8] c"\\01\\FFab\\80\\00\\00\\00", align 1
@static.2 = private unnamed_addr constant [8 x i8] c"\\00\\FFab\\80\\00\\00\\01", align 8
@static.3 = private unnamed_addr constant [0 x i8] zeroinitializer, align 1
define internal { i8, ptr } @pair(i64 %n, ptr %at) {
start:
  %x = trunc i64 %n to i8
  %p = getelementptr i8, ptr %at, i64 3
  %h = insertvalue { i8, ptr } poison, i8 %x, 0
  %w = insertvalue { i8, ptr } %h, ptr %p, 1
  ret { i8, ptr } %w
}
define internal { i8, i8 } @known(i64 %n) {
start:
  %t = icmp ult i64 %n, 100
  br i1 %t, label %one, label %two
one:
  ret { i8, i8 } { i8 -3, i8 9 }
two:
  ret { i8, i8 } zeroinitializer
}
define internal void @quiet(ptr %at, i64 %n) {
start:
  store i64 %n, ptr %at, align 8
  ret void
}
define internal i64 @many(i64 %a, i8 %b, i16 %c, i32 %d, i1 %e, ptr %f) {
start:
  %g = load i64, ptr %f, align 8
  %x = zext i8 %b to i64
  %y = zext i16 %c to i64
  %z = zext i32 %d to i64
  %w = zext i1 %e to i64
  %h = sub i64 %a, %g
  %i = add i64 %h, %x
  %j = mul i64 %i, %y
  %k = add i64 %j, %z
  %l = shl i64 %k, %w
  ret i64 %l
}
"""
FAMILIES = (arithmetic, tests, casts, chosen, known, memory, pairs, copies, stacks, ways)


def bodies():
    return [body for family in FAMILIES for body in family()]


def module_of(all_bodies):
    """The module in LLVM's assembly."""
    made = [INNER]
    for n, body in enumerate(all_bodies):
        lines = "\n".join(it if re.fullmatch(r"\w+:", it) else f"  {it}" for it in body)
        made.append(f"define i64 @usbdisk_case_{n}(i64 %a, i64 %b, ptr %room) {{\nstart:\n{lines}\n}}\n")
    text = "\n".join(made)
    declared = sorted(set(re.findall(r"call ([^@]*)(@(?:llvm|rattle)[\w.]*)\(([^\n]*)\)", text)), key=lambda it: it[1])
    kinds = {name: f"declare {result} {name}({', '.join(re.findall(r'(?:^|, )(ptr|i[0-9]+)', given))})" for result, name, given in declared}
    return text + "\n" + "\n".join(kinds.values()) + "\n"


def header_of(count, header):
    """A header that declares the cases, in the place of usbdisk.h."""
    rows = "\n".join(f"uint64_t usbdisk_case_{n}(uint64_t a, uint64_t b, uint8_t *room);" for n in range(count))
    return f'#include "{header}"\n{rows}\n'


def program_of(count):
    """The program that calls each case."""
    rows = ",\n".join(f"    usbdisk_case_{n}" for n in range(count))
    numbers = ", ".join(f"UINT64_C({it})" for it in NUMBERS)
    return f"""#include "usbdisk.h"
#include <stdio.h>
#include <stdlib.h>
static uint64_t (*const cases[])(uint64_t, uint64_t, uint8_t *) = {{
{rows}
}};
static const uint64_t numbers[] = {{ {numbers} }};
struct rattle_tried rattle_alloc(size_t size, size_t alignment)
{{
    struct rattle_tried it = {{ size < 4096 && alignment <= 8, NULL }};
    it.at = it.ok ? malloc(size) : NULL;
    return it;
}}
void rattle_dealloc(void *at) {{ free(at); }}
int main(void)
{{
    static uint64_t words[10];
    uint8_t *room = (uint8_t *)words;
    enum {{ NUMBERS = sizeof numbers / sizeof numbers[0], CASES = sizeof cases / sizeof cases[0] }};
    for (unsigned at = 0; at < CASES; at++) {{
        uint32_t sum = 2166136261u;
        for (unsigned i = 0; i < NUMBERS * NUMBERS; i++) {{
            for (unsigned j = 0; j < sizeof words; j++)
                room[j] = (uint8_t)(37 * j + i);
            uint64_t got = cases[at](numbers[i / NUMBERS], numbers[i % NUMBERS], room);
            for (unsigned j = 0; j < 8; j++)
                sum = (sum ^ (uint8_t)(got >> 8 * j)) * 16777619u;
            for (unsigned j = 0; j < sizeof words; j++)
                sum = (sum ^ room[j]) * 16777619u;
        }}
        printf("%u %08lx\\n", at, (unsigned long)sum);
    }}
    return 0;
}}
"""
