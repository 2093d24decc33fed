#!/usr/bin/env python3
"""retarget.py MODULE.bc HEAP.c OUT.wasm: compiles for wasm64 the LLVM module that rattle made for x86-64 of a proved static
library, and links it with the heap.

Both targets have pointers of 64 bits, the same byte order, and the same sizes and alignments of all types that the module has.
Each export keeps its name, and gets the guard that rattle itself gives on wasm64: after a call that was cut off no export runs
again. The module imports nothing: what it calls and does not have are the heap's three functions, or it is refused.
"""
import os
import re
import subprocess
import sys
import tempfile

KIT = os.environ["KIT"]
CLANG = f"{KIT}/toolchain/bin/clang"
TARGET = "wasm64-unknown-unknown"
LAYOUT = "e-m:e-p:64:64-p10:8:8-p20:8:8-i64:64-i128:128-n32:64-S128-ni:1:10:20"
# the words that rattle gives clang for wasm64
WORDS = f"""--target={TARGET} -mcpu=lime1 -mllvm -expand-div-rem-bits=64 -mllvm -expand-fp-convert-bits=64 -ffunction-sections
-fdata-sections -mllvm -trap-unreachable -mllvm -disable-machine-licm -mllvm -disable-postra-machine-licm
-mllvm -sink-common-insts=false --no-default-config -no-canonical-prefixes -fintegrated-cc1 -fno-crash-diagnostics -Werror
-c""".split()
CPU = '"no-builtin-bcmp" "no-builtin-memcmp" "no-builtin-strlen" "target-cpu"="lime1" "target-features"="+simd128"'
HEAP = ("rattle_alloc", "rattle_realloc", "rattle_dealloc")
STACK = "1048576"
GUARDED = """
define {result} @{name}({params}) #{mark} {{
start:
  %was = call i1 @__rattle_enter()
  br i1 %was, label %spent, label %run
spent:
  call void @__rattle_trap()
  unreachable
run:
  {take}call {bare} @"{inner}"({args})
  call void @__rattle_leave()
  ret {give}
}}
"""


def run(*words):
    if subprocess.run(words).returncode:
        sys.exit(f"failed: {' '.join(words)}")


def bare(text):
    """A type without the attributes that stand beside it."""
    return re.sub(r"\b(noundef|zeroext|signext|nonnull|readonly|writeonly)\b ?|captures\(none\) ?", "", text).strip()


class Module:
    def __init__(self, text):
        self.text, self.exports, self.more, self.mark = text, [], [], 9000

    def attributes(self, words):
        self.mark += 1
        self.more.append(f"attributes #{self.mark} = {{ nounwind {CPU} {words} }}")
        return self.mark

    def export(self, found):
        """An exported function gets a name of its own, and the export calls it behind the guard."""
        result, name, params = found[1], found[2], found[3]
        inner, kind = f"rattle::export {name}", bare(result)
        args = ", ".join(bare(it) for it in params.split(",") if it.strip())
        take, give = ("", "void") if kind == "void" else ("%out = ", f"{kind} %out")
        mark = self.attributes(f'"wasm-export-name"="{name}"')
        self.more.append(GUARDED.format(result=result.strip(), name=name, params=params, mark=mark, take=take, bare=kind, inner=inner, args=args, give=give))
        self.exports.append(name)
        return f'define internal {result.strip()} @"{inner}"({params}) #{self.attributes("noinline")} {{'

    def retarget(self):
        assert "llvm.x86" not in self.text, "it has an instruction of x86-64 alone"
        assert not re.search(r"\bcall [^\n]*\basm\b", self.text), "it has inline assembly"
        for name, to in (("datalayout", LAYOUT), ("triple", TARGET)):
            self.text, count = re.subn(rf'^target {name} = ".*"$', f'target {name} = "{to}"', self.text, flags=re.M)
            assert count == 1, name
        self.text = re.sub(r'"probe-stack"="[^"]*" |"stack-probe-size"="[^"]*" ', "", self.text)
        self.text = re.sub(r'"target-cpu"="[^"]*"', CPU, self.text)
        self.text = re.sub(r"^define ((?!internal)[^@]*)@(\w+)\(([^)]*)\)[^{\n]*\{", self.export, self.text, flags=re.M)
        for name in re.findall(r"^declare [^@]*@([\w.]+)\(", self.text, flags=re.M):
            assert name.startswith("llvm.") or name in HEAP, f"it calls {name}, which it does not have"
        self.more += ["declare i1 @__rattle_enter()", "declare void @__rattle_leave()", "declare void @__rattle_trap()"]
        return self.text + "\n".join(self.more) + "\n"


def main(module, heap, out):
    with tempfile.TemporaryDirectory() as at:
        run(CLANG, "--no-default-config", "--target=x86_64-unknown-linux-gnu", "-S", "-emit-llvm", "-Xclang", "-disable-llvm-passes", "-x", "ir", module, "-o", f"{at}/before.ll")
        with open(f"{at}/before.ll", encoding="utf-8") as file:
            made = Module(file.read())
        with open(f"{at}/behind.ll", "w", encoding="utf-8") as file:
            file.write(made.retarget())
        run(CLANG, *WORDS, "-Os", "-x", "ir", f"{at}/behind.ll", "-o", f"{at}/module.o")
        run(CLANG, *WORDS, "-O2", "-ffreestanding", "-nostdinc", "-x", "c", heap, "-o", f"{at}/heap.o")
        run(f"{KIT}/toolchain/bin/llvm-ar", "rcsD", "--format=gnu", f"{at}/both.a", f"{at}/module.o", f"{at}/heap.o")
        run(f"{KIT}/bin/rattle-link", "--target", TARGET, "--toolchain", f"{KIT}/toolchain", "--stack", STACK, "-o", out, f"{at}/both.a")
    print(f"{out}: {os.path.getsize(out)} bytes, exports {' '.join(made.exports)}")


if __name__ == "__main__":
    main(*sys.argv[1:])
