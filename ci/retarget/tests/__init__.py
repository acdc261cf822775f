"""Tests of the rewriting. Each begins with a small module that is taken, and adds the lines in question."""

HEAD = """\
target datalayout = "e-m:e-p270:32:32-p271:32:32-p272:64:64-i64:64-i128:128-f80:128-n8:16:32:64-S128"
target triple = "x86_64-unknown-linux-gnu"
"""
TAIL = """\
declare void @llvm.memset.p0.i64(ptr writeonly captures(none), i8, i64, i1 immarg) #1
declare void @llvm.memmove.p0.p0.i64(ptr writeonly captures(none), ptr readonly captures(none), i64, i1 immarg) #1
attributes #0 = { nounwind "probe-stack"="inline-asm" "target-cpu"="x86-64-v2" }
attributes #1 = { nounwind memory(argmem: write) }
"""
CONSTANT = '@bytes = private unnamed_addr constant [2 x i8] c"\\00a", align 1\n'
START = "define internal void @f(ptr %a, i64 %n, i8 %b, { ptr, i64 } %pair) #0 {\nstart:\n"


def module(*body, head=HEAD, before=CONSTANT, start=START, tail=TAIL):
    """A module with one function that has these instructions."""
    lines = "".join(f"  {line}\n" for line in body)
    return f"{head}{before}{start}{lines}  ret void\n}}\n{tail}"
