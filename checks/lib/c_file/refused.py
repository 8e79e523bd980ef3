"""What dist/to_c refuses: lines of a function, each in a module that is understood but for it."""

MODULE = """@static.1 = private unnamed_addr constant [2 x i8] c"ab", align 1
define internal i64 @inner(i64 %n) {{
start:
  ret i64 %n
}}
define i64 @usbdisk_case_0(i64 %a, i64 %b, ptr %room) {{
start:
  %p = getelementptr i8, ptr %room, i64 8
  %t = icmp eq i64 %a, %b
{}
  ret i64 0
}}
{}
"""
# None: the module as it stands is taken.
LINES = {
    "nothing": None,
    "a float": "%x = fadd double 0.0, 1.0",
    "a float that is loaded": "%x = load double, ptr %room, align 8",
    "a vector": "%x = load <2 x i64>, ptr %room, align 8",
    "128 bits": "%x = zext i64 %a to i128",
    "65 bits": "%x = zext i64 %a to i65",
    "a division with signs": "%x = sdiv i64 %a, 3",
    "a remainder with signs": "%x = srem i64 %a, 3",
    "a shift with its sign": "%x = ashr i64 %a, 3",
    "a funnel by a number that is not known": "%x = call i64 @llvm.fshl.i64(i64 %a, i64 %b, i64 %a)",
    "a funnel by all bits": "%x = call i64 @llvm.fshl.i64(i64 %a, i64 %b, i64 64)\n  store i64 %x, ptr %room, align 8",
    "addresses in order": "%x = icmp ult ptr %p, %room\n  store i1 %x, ptr %room, align 1",
    "an address of 32 bits": "%x = ptrtoint ptr %p to i32",
    "an address of a number of 32 bits": "%x = inttoptr i32 7 to ptr",
    "a distance in words": "%x = getelementptr i64, ptr %room, i64 %a",
    "a distance of 32 bits": "%x = getelementptr i8, ptr %room, i32 4",
    "a distance in a type": "%x = getelementptr { i8, i64 }, ptr %room, i64 0, i32 1",
    "a call by an address": "%x = call i64 %p(i64 %a)",
    "the address of a function": "store ptr @inner, ptr %room, align 8",
    "a call of what is not there": "%x = call i64 @other(i64 %a)",
    "a call by another type": "%x = call i32 @inner(i64 %a)",
    "a call of fewer numbers": "%x = call i64 @inner()",
    "another intrinsic": "%x = call i64 @llvm.ctpop.i64(i64 %a)",
    "a copy that is volatile": "call void @llvm.memcpy.p0.p0.i64(ptr %p, ptr %room, i64 4, i1 true)",
    "a read that is volatile": "%x = load volatile i64, ptr %room, align 8",
    "a read that is atomic": "%x = load atomic i64, ptr %room seq_cst, align 8",
    "a fence": "fence seq_cst",
    "an exchange": "%x = atomicrmw add ptr %room, i64 1 seq_cst, align 8",
    "assembly": 'call void asm sideeffect "nop", ""()',
    "a place of a size that is not known": "%x = alloca i8, i64 %a, align 1",
    "a place that is made anew on a way": "br label %next\nnext:\n  %x = alloca i8, align 1\n  store i8 1, ptr %x, align 1",
    "a place of another type": "%x = alloca { i8, i64 }, align 8",
    "a place for a vector": "%x = alloca [32 x i8], align 16",
    "a number of another type": "%x = add i32 %a, 1",
    "a value that is not there": "%x = add i64 %y, 1",
    "a value that is made twice": "%p = getelementptr i8, ptr %room, i64 1",
    "another answer": "ret i32 0",
    "a label that is not there": "br label %nowhere",
    "another address space": "%x = load i64, ptr addrspace(1) null, align 8",
    "a pair in a pair": "%x = load { i8, { i8, i8 } }, ptr %room, align 8",
    "three parts": "%x = load { i8, i8, i8 }, ptr %room, align 8",
    "an exception": "%x = invoke i64 @inner(i64 %a) to label %start unwind label %start",
    "a phi of other blocks": "br label %next\nnext:\n  %x = phi i64 [ 1, %nowhere ]\n  store i64 %x, ptr %room, align 8",
}
BESIDE = {
    "data that may change": "@other = internal global i64 0, align 8",
    "an address in a constant": "@other = private constant [1 x ptr] [ptr @static.1], align 8",
    "a constant that has no bytes": "@static.9 = private unnamed_addr constant [2 x i32] [i32 1, i32 2], align 4",
    "another name for a function": "@other = alias i64 (i64), ptr @inner",
    "any number of arguments": "define internal i64 @more(i64 %n, ...) {\nstart:\n  ret i64 %n\n}",
    "a call that the header has not": "define i64 @usbdisk_more(i64 %n) {\nstart:\n  ret i64 %n\n}",
}


def modules():
    """Each module that is to be refused, by what is wrong with it."""
    for what, line in LINES.items():
        yield what, MODULE.format("" if line is None else f"  {line}", "")
    for what, text in BESIDE.items():
        yield what, MODULE.format("", text)
