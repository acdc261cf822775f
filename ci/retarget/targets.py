"""The targets with 32-bit pointers, and how clang compiles for them."""
from typing import NamedTuple

ARM_LAYOUT = "e-m:e-p:32:32-Fi8-i64:64-v128:64:128-a:0:32-n32-S64"
RISCV_LAYOUT = "e-m:e-p:32:32-i64:64-n32-S128"
WASM_LAYOUT = "e-m:e-p:32:32-p10:8:8-p20:8:8-i64:64-i128:128-n32:64-S128-ni:1:10:20"


class Target(NamedTuple):
    """What LLVM calls a target, its data layout, and the options that name the processor to clang. Of a processor the object files are
    of ELF."""

    triple: str
    layout: str
    options: tuple
    is_processor: bool = True


TARGETS = {
    "thumbv6m": Target("thumbv6m-none-unknown-eabi", ARM_LAYOUT, ("-mcpu=cortex-m0",)),
    "thumbv7m": Target("thumbv7m-none-unknown-eabi", ARM_LAYOUT, ("-mcpu=cortex-m3",)),
    "thumbv7em": Target("thumbv7em-none-unknown-eabi", ARM_LAYOUT, ("-mcpu=cortex-m4", "-mfloat-abi=soft")),
    "riscv32imac": Target("riscv32-unknown-unknown-elf", RISCV_LAYOUT, ("-march=rv32imac", "-mabi=ilp32")),
    "wasm32": Target("wasm32-unknown-unknown", WASM_LAYOUT, ("-mcpu=lime1",), False),
}
PROCESSORS = tuple(name for name, target in TARGETS.items() if target.is_processor)
LEVELS = {"speed": "-O3", "size": "-Os"}
# how often the module is optimized for a processor: the second time takes copies away that the first one leaves
ROUNDS = 2
# what rattle passes for each of its targets
OPTIONS = (
    *("-ffreestanding", "-ffunction-sections", "-fdata-sections", "-Wno-override-module"),
    *("-mllvm", "-trap-unreachable", "-mllvm", "-no-trap-after-noreturn"),
    *("-mllvm", "-disable-machine-licm", "-mllvm", "-disable-postra-machine-licm"),
    *("-mllvm", "-sink-common-insts=false"),
)
# how far the compiler looks for a copy of memory that is needless: with its own limits it leaves values as large as a store on the stack
LIMITS = {
    "memssa-check-limit": 5000,
    "dse-memoryssa-scanlimit": 5000,
    "dse-memoryssa-walklimit": 2000,
    "dse-memoryssa-path-check-limit": 1000,
    "dse-memoryssa-partial-store-limit": 50,
    "dse-memoryssa-defs-per-block-limit": 50000,
}


def clang_options(target, way):
    """The options with which clang compiles a rewritten module."""
    it = TARGETS[target]
    sizes = ["-fstack-size-section"] if it.is_processor else []  # of frames, for stack.py
    limits = [word for name, limit in LIMITS.items() for word in ("-mllvm", f"-{name}={limit}")]
    return [f"--target={it.triple}", *it.options, LEVELS[way], *OPTIONS, *(limits if it.is_processor else []), *sizes]
