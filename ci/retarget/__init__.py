"""Makes of the LLVM module of a 64-bit target one for a processor with 32-bit pointers.

The layouts stay those of 64 bits: a pointer has a slot of 8 bytes and lies in its first 4, and each number keeps its width, so
that a `usize` has 64 bits. What no rule is there for is refused.
"""
