"""For PlatformIO: links the archive that ci/edge_archive made for the processor. The option `custom_cose_way` of an environment is speed
or size (size where there is none)."""
import os

Import("env")  # noqa: F821 (of SCons)

TARGETS = {
    "cortex-m0": "thumbv6m",
    "cortex-m0plus": "thumbv6m",
    "cortex-m3": "thumbv7m",
    "cortex-m4": "thumbv7em",
    "cortex-m7": "thumbv7em",
    "rv32imac": "riscv32imac",
}


def link(env, top):
    """Adds the header and the archive to what is built."""
    board = env.BoardConfig()
    processor = board.get("build.cpu", board.get("build.march", ""))
    if processor not in TARGETS:
        raise SystemExit(f"cose has no archive for {processor or 'this board'}")
    checkout = os.path.join(top, "..", "..")
    out = os.path.join(checkout, "crates", "cose_c", "out")
    way = env.GetProjectOption("custom_cose_way", "size")
    env.Append(CPPPATH=[os.path.join(checkout, "include")])
    env.Append(LINKFLAGS=[os.path.join(out, f"libcose_c.{TARGETS[processor]}.{way}.a")])


link(env, os.path.realpath(os.getcwd()))  # noqa: F821
