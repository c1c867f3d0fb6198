#!/bin/sh
# Tests the library that bin/build built for a machine: makes the list of calls of tests/machines/calls.c there, and compares what it says with
# what it says through the x86-64 archive and through the second implementation.
#   tests/machines.sh MACHINE      x86_64, cortex-m0 and cortex-m4 (on emulated boards), wasm32 (under Node); of riscv32 the format alone
# It needs gcc, target/MACHINE and target/x86_64; for a board arm-none-eabi-gcc and qemu-system-arm, for wasm32 node. The last line is
# 'MACHINE: N passed, M failed'.
# shellcheck disable=SC2317 # functions that `passes` calls
set -u
cd "$(dirname "$0")/.." || exit 1
machine=$1
here=tests/machines
to=target/tests/machines
tools=target/kit
strict='-std=c11 -Wall -Wextra -Werror -Iinclude -Itests -Itests/machines'
# shellcheck source=tests/passes.sh
. tests/passes.sh

# The archive's first bytes tell the format, and of an ELF file the bytes 18 and 19 the machine.
is_format() {
    "$tools/llvm-ar" p "target/$1/libpandrwyg.a" >"$to/object" || return
    case $2 in
        wasm) [ "$(head -c 4 "$to/object" | tail -c 3)" = asm ] ;;
        *) [ "$(head -c 4 "$to/object" | tail -c 3)" = ELF ] && [ "$(od -An -tu2 -j18 -N2 "$to/object" | tr -d ' ')" = "$2" ] ;;
    esac
}

# No pointer becomes a number, and no number a pointer; and no value has a pointer behind a narrower part, where a narrower pointer would stand
# at another place. Then 64-bit lengths do for pointers of any width.
is_portable() {
    "$tools/clang" --target=x86_64-unknown-linux-gnu -S -emit-llvm -x ir "$tools/module.bc" -o "$to/module.ll" &&
        grep -q '^define .*@pandrwyg_draw_raw(' "$to/module.ll" && ! grep -E 'ptrtoint|inttoptr|addrspacecast' "$to/module.ll" &&
        ! grep -E '[{] [^}]*(ptr|i1|i8|i16|i32), ptr' "$to/module.ll"
}

# docs/C.md tells the bytes of code and tables.
is_told() {
    told=$(awk -F'|' -v name="\`$1\`" 'index($2, name) { gsub(/[ ,]/, "", $5); print $5; exit }' docs/C.md)
    is=$("$tools/llvm-size" "target/$1/libpandrwyg.a" | awk -v name="$1" 'NR > 1 { code += $1 + (name ~ /^wasm/ ? $2 : 0) } END { print code }')
    [ "$told" = "$is" ] || { printf '  docs/C.md tells %s bytes, and there are %s\n' "$told" "$is"; return 1; }
}

# The fenced block number $1 of docs/JAVASCRIPT.md.
block() {
    awk -v due="$1" '/^```/ { fence++; next } fence == 2 * due - 1' docs/JAVASCRIPT.md
}

quotes_example() {
    [ "$(block 1)" = "$(cat examples/draw_ten_lines.mjs)" ] && [ "$(block 2)" = "$(node examples/draw_ten_lines.mjs)" ]
}

# Makes the list of calls by the rest of the words, and keeps what it says as $1.said; it ends with 0 where no comparison failed.
make_list() {
    name=$1
    shift
    "$@" >"$to/$name.said" 2>&1 && ! grep ' [1-9][0-9]* wrong$' "$to/$name.said"
}

same() {
    diff "$to/$1.said" "$to/second.said"
}

mkdir -p "$to" || exit 1
# shellcheck disable=SC2086 # lists of words
build_host() {
    second=$(ls tests/second*.c)
    gcc $strict -O2 -o "$to/settings" $here/settings.c $second && "$to/settings" >"$to/settings.c" &&
        gcc $strict -O2 -o "$to/second" $here/host.c $here/calls.c "$to/settings.c" $here/second_raw.c $second &&
        gcc $strict -O2 -o "$to/x86_64" $here/host.c $here/calls.c "$to/settings.c" target/x86_64/libpandrwyg.a
}

# shellcheck disable=SC2086 # lists of words
build_board() {
    arm-none-eabi-gcc $strict -mcpu="$machine" -mthumb -Os -ffreestanding -fno-tree-loop-distribute-patterns -nostdlib \
        -T examples/controller/controller.ld -Wl,--gc-sections -Wl,-z,noexecstack -o "$to/$machine.elf" examples/controller/start.c \
        $here/firmware.c $here/calls.c "$to/settings.c" "target/$machine/libpandrwyg.a" -lgcc
}

# What the firmware says comes by semihosting; $1 is the emulator's name of the board.
run_board() {
    timeout 300 qemu-system-arm -M "$1" -nographic -monitor none -serial none -semihosting-config enable=on,target=native \
        -kernel "$to/$machine.elf" </dev/null
}

board() {
    passes 'the format' is_format "$machine" 40
    passes 'the firmware is built' build_board
    passes 'the list on the board' make_list board run_board "$1"
    passes 'the board and the second implementation agree' same board
}

# The list is a module of its own; the calls that it misses come from the library's JavaScript module.
# shellcheck disable=SC2086 # lists of words
build_list_module() {
    for file in $here/calls.c "$to/settings.c"; do
        "$tools/clang" --target=wasm32-unknown-unknown $strict -O2 -mbulk-memory -ffreestanding -nostdlibinc \
            -isystem "$(gcc -print-file-name=include)" -c "$file" -o "$to/$(basename "$file" .c).o" || return
    done
    "$tools/wasm-ld" --no-entry --allow-undefined --export=make_calls --stack-first "$to/calls.o" "$to/settings.o" -o "$to/list.wasm"
}

passes 'the list for the host is built' build_host
[ "$failed" -eq 0 ] || finish "$machine"
passes 'the list of the second implementation' make_list second "$to/second"
passes 'the list through the x86-64 archive' make_list x86_64 "$to/x86_64"
passes 'x86-64 and the second implementation agree' same x86_64
passes 'the size that docs/C.md tells' is_told "$machine"
case $machine in
    x86_64)
        passes 'the format' is_format x86_64 62
        passes 'the module has no casts of pointers' is_portable
        passes "target/staticlib has the x86-64 archive" cmp target/staticlib/libpandrwyg.a target/x86_64/libpandrwyg.a
        ;;
    cortex-m0) board microbit ;;
    cortex-m4) board mps2-an386 ;;
    riscv32) passes 'the format' is_format riscv32 243 ;;
    wasm32)
        passes 'the format' is_format wasm32 wasm
        passes "the list's module is built" build_list_module
        passes 'the list under Node' make_list node node $here/node.mjs target/wasm32 "$to/list.wasm"
        passes 'Node and the second implementation agree' same node
        passes 'the JavaScript module' node $here/javascript.mjs target/wasm32
        passes 'docs/JAVASCRIPT.md quotes its example' quotes_example
        ;;
    *)
        passes "$machine is a machine that has a test" false
        ;;
esac
finish "$machine"
