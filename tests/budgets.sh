#!/bin/sh
# Holds the calls on the controller to their budgets: instructions and stack, measured on the emulated board over all accepted settings and both
# numberings (tests/machines/budget.c), and the flash of each call alone. All are the same in every run; docs/C.md, "On the controller", tells
# them, and is held to them.
#   tests/budgets.sh
# It needs target/cortex-m0, which bin/build makes, gcc, arm-none-eabi-gcc and qemu-system-arm. The last line is 'budgets: N passed, M failed'.
# shellcheck disable=SC2317 # functions that `passes` calls
set -u
cd "$(dirname "$0")/.." || exit 1
to=target/tests/machines
library=target/cortex-m0/libpandrwyg.a
# shellcheck source=tests/passes.sh
. tests/passes.sh

# Whether a cell of docs/C.md's row that begins with the cell $1 tells the number $2, with commas.
is_told() {
    awk -F ' *[|] *' -v row="$1" -v number="$2" '
        $2 == row { for (at = 3; at < NF; at++) { gsub(/,/, "", $at); found += $at == number } } END { exit !found }' docs/C.md
}

# Tests that the measure $2 of $1 is at most $3, and is told by docs/C.md.
within() {
    passes "$1: $2, at most $3" test "${2:--1}" -ge 0 -a "${2:-0}" -le "$3"
    passes "$1: $2, told by docs/C.md" is_told "$1" "$2"
}

# shellcheck disable=SC2086 # a list of words
arm() {
    arm-none-eabi-gcc -std=c11 -mcpu=cortex-m0 -mthumb -Os -ffreestanding -fno-tree-loop-distribute-patterns -Wall -Wextra -Werror \
        -Iinclude -Itests -Itests/machines -nostdlib -Wl,--gc-sections -Wl,-z,noexecstack "$@"
}

# The flash of a firmware that has nothing but these calls: code, tables, and what they take of libgcc.
flash_of() {
    words=''
    for call do
        words="$words -Wl,-u,pandrwyg_${call}_raw"
    done
    # shellcheck disable=SC2086 # a list of words
    arm $words -Wl,-e,"pandrwyg_$1_raw" -Wl,--defsym=__aeabi_memclr4=0 -o "$to/flash.elf" "$library" -lgcc &&
        arm-none-eabi-size "$to/flash.elf" | awk 'NR == 2 { print $1 + $2 }'
}

# What the firmware says of the call $1: the field $2 of its line.
said_of() {
    awk -v call="$1" -v field="$2" '$1 == call { print $field }' "$to/budget.said"
}

mkdir -p "$to" &&
    gcc -std=c11 -O2 -Iinclude -Itests -o "$to/settings" tests/machines/settings.c tests/second*.c && "$to/settings" >"$to/settings.c" &&
    arm -T examples/controller/controller.ld -o "$to/budget.elf" examples/controller/start.c tests/machines/budget.c "$to/settings.c" \
        "$library" -lgcc &&
    timeout 600 qemu-system-arm -M microbit -nographic -monitor none -serial none -icount shift=0 \
        -semihosting-config enable=on,target=native -kernel "$to/budget.elf" </dev/null >"$to/budget.said" 2>&1
passes 'the firmware that measures' test $? -eq 0
cat "$to/budget.said"

within 'Draw' "$(said_of draw 2)" 30000
within 'Draw' "$(said_of draw 3)" 512
within 'Draw' "$(flash_of draw)" 16384
within 'Draw a batch of three' "$(said_of draw_batch 2)" 42000
within 'Draw a batch of three' "$(said_of draw_batch 3)" 576
within 'Draw a batch of three' "$(flash_of draw_batch)" 16384
within 'Receive of 64 random rows' "$(said_of receive 2)" 270000
within 'Receive of 64 random rows' "$(said_of receive 3)" 1024
within 'Receive of 64 random rows' "$(flash_of receive)" 16384
within 'Receive of 64 rows of n - 1 dimensions' "$(said_of receive_longest 2)" 920000
within 'Receive of 64 rows of n - 1 dimensions' "$(said_of receive_longest 3)" 1024
within 'Draw and Receive' "$(flash_of draw receive)" 16384
within 'All three' "$(flash_of draw draw_batch receive)" 16384
within 'Writable data' "$(arm-none-eabi-size "$library" | awk 'NR > 1 { data += $2 + $3 } END { print data }')" 0
finish budgets
