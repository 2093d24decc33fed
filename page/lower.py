#!/usr/bin/env python3
"""lower.py MODULE64.wasm MODULE.wasm: makes the memory of a module one of 32 bits, which each browser has.

wasm-opt of Binaryen 108 does it, but leaves the addresses of the vector instructions that read or write a part of a vector,
or spread what they read, as numbers of 64 bits. So those are cut here, in the module's text, as wasm-opt cuts all others.
"""
import re
import subprocess
import sys
import tempfile

FEATURES = [f"--enable-{name}" for name in ("bulk-memory", "sign-ext", "mutable-globals", "nontrapping-float-to-int", "multivalue", "simd")]
LEFT = re.compile(r"\(v128\.(?:load\d+_splat|load\d+_zero|load\d+x\d+_[su]|load\d+_lane|store\d+_lane)\b[^\n()]*")


def run(*words):
    if subprocess.run(words).returncode:
        sys.exit(f"failed: {' '.join(words)}")


def end_of(text, start):
    """Behind the expression that begins at `start`."""
    depth = 0
    for at in range(start, len(text)):
        depth += {"(": 1, ")": -1}.get(text[at], 0)
        if not depth:
            return at + 1
    sys.exit("an expression has no end")


def cut_addresses(text):
    """The text in which the first operand of each instruction that was left is cut to 32 bits."""
    found = [it.end() for it in LEFT.finditer(text)]
    for behind in reversed(found):
        start = text.index("(", behind)
        end = end_of(text, start)
        text = f"{text[:start]}(i32.wrap_i64 {text[start:end]}){text[end:]}"
    return text, len(found)


def main(module, out):
    with tempfile.TemporaryDirectory() as at:
        run("wasm-opt", "--enable-memory64", *FEATURES, "--no-validation", module, "--memory64-lowering", "-S", "-o", f"{at}/left.wat")
        with open(f"{at}/left.wat", encoding="utf-8") as file:
            text, count = cut_addresses(file.read())
        with open(f"{at}/lowered.wat", "w", encoding="utf-8") as file:
            file.write(text)
        run("wasm-as", *FEATURES, f"{at}/lowered.wat", "-o", out)
    print(f"{out}: {count} addresses of vector instructions cut")


if __name__ == "__main__":
    main(*sys.argv[1:])
