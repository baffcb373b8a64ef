#!/usr/bin/env python3
"""Makes the LLVM module of the proved program, which was written for x86-64, one for WebAssembly with a 64-bit memory: SOURCE.ll RESULT.ll LAYOUT.

Both have pointers of 64 bits and the same layout of structs, so only what names the system changes: the triple, the data layout, the
instructions of the processor, and the functions of the C library, which become those of host.h. It stops at what it does not know."""
import re
import sys
from pathlib import Path
from typing import NoReturn

# The calls by name.
RENAMED = {"read": "ctd_read", "write": "ctd_write", "close": "ctd_close", "rattle_errno": "ctd_errno",
           "rattle_set_errno": "ctd_set_errno", "rattle_arg": "ctd_arg"}  # fmt: skip
DECLARED_HERE = ["rattle_alloc", "rattle_realloc", "rattle_dealloc", "open", "__sysv_signal", "__x86_get_cpuid_feature_leaf", "__write"]

# The start of the program without that of the process: only what the proof is about.
START = """define i32 @ctd_main() nounwind {
  %r = call i32 @"CRATE::main+start"()
  ret i32 %r
}"""

# The heap over malloc. The answer is a pair: whether there is memory, and the place. C on Windows returns such a pair otherwise than LLVM, so
# these functions are not in C.
HEAP = """
@ctd_nothing = internal global [16 x i8] zeroinitializer, align 16
declare ptr @ctd_alloc(i64) nounwind
declare ptr @ctd_resize(ptr, i64) nounwind
declare void @ctd_free(ptr) nounwind
define internal PAIR @ctd_place(ptr %p) alwaysinline nounwind {
  %ok = icmp ne ptr %p, null
  %w = zext i1 %ok to i64
  %q = select i1 %ok, ptr %p, ptr @ctd_nothing
  %n = ptrtoint ptr %q to i64
  %a = insertvalue PAIR poison, i64 %w, 0
  %b = insertvalue PAIR %a, i64 %n, 1
  ret PAIR %b
}
define internal PAIR @rattle_alloc(i64 %n, i64 %align) nounwind {
  %some = call i64 @llvm.umax.i64(i64 %n, i64 1)
  %p = call ptr @ctd_alloc(i64 %some)
  %r = call PAIR @ctd_place(ptr %p)
  ret PAIR %r
}
define internal PAIR @rattle_realloc(ptr %old, i64 %kept, i64 %n, i64 %align) nounwind {
  %some = call i64 @llvm.umax.i64(i64 %n, i64 1)
  %p = call ptr @ctd_resize(ptr %old, i64 %some)
  %r = call PAIR @ctd_place(ptr %p)
  ret PAIR %r
}
define internal void @rattle_dealloc(ptr %p) alwaysinline nounwind {
  call void @ctd_free(ptr %p)
  ret void
}
declare i64 @llvm.umax.i64(i64, i64)
declare i32 @ctd_open(ptr, i32) nounwind
"""

# pshufb gives 0 where bit 7 of an index is set, and looks at its low 4 bits otherwise; swizzle gives 0 from 16 on.
SHUFFLE = "llvm.x86.ssse3.pshuf.b.128"
SHUFFLED = """define internal <16 x i8> @shuffle_bytes(<16 x i8> %a, <16 x i8> %b) alwaysinline nounwind {
  %m = and <16 x i8> %b, splat (i8 -113)
  %r = call <16 x i8> @llvm.wasm.swizzle(<16 x i8> %a, <16 x i8> %m)
  ret <16 x i8> %r
}
declare <16 x i8> @llvm.wasm.swizzle(<16 x i8>, <16 x i8>)"""


def stop(why: str) -> NoReturn:
    sys.exit(f"retarget.py: {why}")


def with_start(text: str) -> str:
    """The module with the start of the program alone."""
    start = re.search(r'@"?(\w+)::main\+start"?\(', text)
    if start is None:
        stop("no start of the program")
    text, count = re.subn(r"(?ms)^define i32 @main\(\).*?^\}$", lambda _: START.replace("CRATE", start[1]), text)
    if count != 1:
        stop(f"{count} functions main")
    return text


def with_host(text: str) -> str:
    """The module with the functions of host.h in place of those of the C library."""
    pair = re.search(r"(?m)^declare (.*?) @rattle_alloc\(", text)
    if pair is None:
        stop("no heap")
    for name in DECLARED_HERE:
        text = re.sub(rf"(?m)^declare [^\n]*@{name}\(.*\n", "", text)
    text = re.sub(r"call i32 \(ptr, i32, \.\.\.\) @open\(ptr (\S+), i32 (\S+?)(?:, i32 \S+)?\)", r"call i32 @ctd_open(ptr \1, i32 \2)", text)
    for old, new in RENAMED.items():
        text = re.sub(rf"@{old}\(", f"@{new}(", text)
    return text + HEAP.replace("PAIR", pair[1])


def with_processor(text: str, layout: str) -> str:
    """The module for the processor that WebAssembly is."""
    text = re.sub(r"(?m)^target datalayout = .*$", lambda _: f'target datalayout = "{layout}"', text)
    text = re.sub(r"(?m)^target triple = .*$", 'target triple = "wasm64-unknown-unknown"', text)
    text = re.sub(r' ?"(?:probe-stack|stack-probe-size|target-cpu)"="[^"]*"', "", text)
    # A fence keeps floating-point operations apart, which nothing here joins; WebAssembly has none. x + -0.0 is x.
    text = re.sub(r"call double @llvm\.arithmetic\.fence\.f64\(double (\S+)\)", r"fadd double \1, -0.0", text)
    text = re.sub(rf"(?m)^declare <16 x i8> @{re.escape(SHUFFLE)}\(.*$", lambda _: SHUFFLED, text).replace(f"@{SHUFFLE}", "@shuffle_bytes")
    left = sorted(set(re.findall(r"llvm\.x86\.[\w.]+", text)))
    if left:
        stop(f"intrinsics of x86: {', '.join(left)}")
    return text


source, result, layout = sys.argv[1:]
Path(result).write_text(with_processor(with_host(with_start(Path(source).read_text())), layout))
