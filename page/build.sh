#!/usr/bin/env bash
# Makes the page from the crate sg_page:
#
#   page/build.sh           proves the crate, makes its module and the page in page/out, and prints their digests
#   page/build.sh keep      the same, and keeps the page and the digests in page/
#   page/build.sh compare   the same, and compares both with those that are kept there
#
# It wants the kit that README names (its `rt` on the PATH, or its folder as KIT), python3, and wasm-opt of Binaryen 108, as
# Debian 12 has it (apt-get install binaryen). Another version of either may make other bytes.
#
# `rattle build` gives the proved crate to clang as one LLVM module. The kit's compiler for wasm64 refuses crates that take
# memory, so that module is compiled for WebAssembly here: retarget.py says how. lower.py then makes its memory one of 32 bits,
# which each browser has, by wasm-opt.
set -euo pipefail
top=$(cd "$(dirname "$0")/.." && pwd)
page=$top/page
out=$page/out
what=${1:-}
KIT=${KIT:-$(dirname "$(dirname "$(readlink -f "$(command -v rt)")")")}
export KIT

version=$(wasm-opt --version | grep -o '[0-9]*' | head -1)
[ "$version" = 108 ] || echo "build.sh: wasm-opt is of version $version and not 108: its bytes may differ" >&2

# A toolchain whose clang keeps a copy of the module that it is given.
toolchain() {
    mkdir -p "$out/toolchain/bin"
    ln -sfn "$KIT/toolchain/lib" "$out/toolchain/lib"
    for name in ld.lld llvm-ar; do ln -sfn "$KIT/toolchain/bin/clang" "$out/toolchain/bin/$name"; done
    ln -sfn "$KIT/toolchain/bin/rattle-x64" "$out/toolchain/bin/rattle-x64"
    cat > "$out/clang" <<WRAPPER
#!/bin/bash
for word in "\$@"; do [ "\$word" = module.bc ] && cp module.bc "$out/module.bc"; done
exec -a "\$0" "$KIT/toolchain/bin/clang" "\$@"
WRAPPER
    chmod +x "$out/clang"
    mv -f "$out/clang" "$out/toolchain/bin/clang"
}

# The crate's LLVM module. `rt check` proves the crate, and makes the libraries below it.
module() {
    cd "$top/crates/sg_page"
    rt check > "$out/check.log" 2>&1 || { tail -n 20 "$out/check.log"; return 1; }
    words=(--crate-name sg_page src/lib.rt --extern "std=$KIT/rlibs/std.rlib")
    for name in $(sed -n 's/^sg_page staticlib://p' "$top/crates.txt"); do
        if [ -e "$top/crates/$name" ]; then
            words+=(--extern "$name=$top/crates/$name/out/rlib/$name.rlib" -L "dependency=$top/crates/$name/out/rlib")
        else
            words+=(--extern "$name=$KIT/rlibs/$name.rlib")
        fi
    done
    rm -f "$out/module.bc"
    "$KIT/bin/rattle" build "${words[@]}" -L "dependency=$KIT/rlibs" --antt-project "$KIT/rattle/logic/antt-project.json" \
        --logic-built "$KIT/logic_built" --jobs 1 --links sg_page= --crate-type staticlib --toolchain "$out/toolchain" \
        --backend llvm --incremental out/incremental -o "$out/libsg_page.a" > "$out/build.log" 2>&1 || { tail -n 20 "$out/build.log"; return 1; }
    tail -n 1 "$out/build.log"
}

mkdir -p "$out"
toolchain
module
cd "$page"
python3 retarget.py out/module.bc heap.c out/sg_page64.wasm
python3 lower.py out/sg_page64.wasm out/sg_page.wasm
python3 make_page.py out/sg_page.wasm out/voldkaumi-check.html

sums() { sha256sum out/module.bc out/sg_page.wasm; (cd out && sha256sum voldkaumi-check.html); }
sums
case $what in
keep)
    cp out/voldkaumi-check.html voldkaumi-check.html
    sums > SHA256SUMS
    ;;
compare)
    cmp out/voldkaumi-check.html voldkaumi-check.html
    sha256sum --check SHA256SUMS
    ;;
esac
wc -c out/sg_page.wasm out/voldkaumi-check.html
