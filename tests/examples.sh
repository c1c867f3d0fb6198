#!/bin/sh
# Tests the example programs: what examples/run shows, document 01's figures through the pipe, the programs' refusals, and that docs/C.md
# and README.md quote them as they are. It needs what examples/run needs. The last line is 'examples: N passed, M failed'.
set -u
cd "$(dirname "$0")/.." || exit 1
programs=target/examples
passed=0
failed=0

# Compares: $1 names the test, $2 is what came out, $3 is what should.
same() {
    if [ "$2" = "$3" ]; then
        passed=$((passed + 1))
    else
        failed=$((failed + 1))
        printf '  failed: %s\n    came out: %s\n    should be: %s\n' "$1" "$2" "$3"
    fi
}

# Runs a command and tells its exit status, then what it says.
answer() {
    said=$("$@" 2>&1)
    printf '%s: %s' "$?" "$said"
}

cabinet() {
    answer "$programs/cabinet"
}

# The message with the settings $1 and a row for each further argument.
message() {
    printf '%s\n' "$@"
}

# The fenced block number $2 under the heading $1 of docs/C.md.
block() {
    awk -v heading="## $1" -v due="$2" '$0 == heading { seen = 1 } seen && /^```/ { fence++; next } fence == 2 * due - 1' docs/C.md
}

# The record $1 of settings $2, $3, $4 through two neighbours that mix well more rows than are needed.
round_trip() {
    went=$("$programs/pack" "$@" | "$programs/neighbour" 24 4 5 2>/dev/null | "$programs/neighbour" 20 2 6 2>/dev/null | cabinet)
    same "record $1 of $2,$3,$4" "$went" "0: rows: 18; dimensions: $4 of $4; record: $1"
}

# ---- examples/run ----

whole='  rows: 7; dimensions: 6 of 6; record: 1234567890123456789'
short='  rows: 3; dimensions: 3 of 6; missing: 3'
shown=$(answer examples/run)
same 'examples/run ends well' "${shown%%:*}" 0
same 'what the cabinet says' "$(printf '%s\n' "$shown" | grep '^  rows: ')" "$(message "$whole" "$short")"
same 'rows sent, mixtures passed on' "$(printf '%s\n' "$shown" | grep -cE '^  ([01]{16}$|factors [01]+ give [01]{16})')" 30
same 'mixtures lost' "$(printf '%s\n' "$shown" | grep -c ', lost$')" 6
by_hand=$(printf '%s\n' "$shown" | sed -n 's/^  \(\.\/pack .*\)$/\1/p')
same 'the line to type by hand' "  $(cd "$programs" && sh -c "$by_hand" 2>/dev/null)" "$whole"
same 'another record' "$(answer examples/run 0 | grep '; record: ')" '  rows: 7; dimensions: 6 of 6; record: 0'
pack_failed=$(message 1 'examples/run: the pack failed')
same 'a record too large' "$(answer examples/run 18446744073709551615 | sed -n '1s/:.*//p; $p')" "$pack_failed"
same 'no record' "$(answer examples/run ten | sed -n '1s/:.*//p; $p')" "$pack_failed"
same 'too many words' "$(answer examples/run 1 2)" '1: examples/run: usage: examples/run [RECORD]'
same 'from another folder' "$(cd tests && answer ../examples/run | grep -c '^  rows: ')" 2

# ---- The pack's firmware on the emulated controller, where its tools are here ----

if bin/need -n arm-none-eabi-gcc qemu-system-arm; then
    same 'the controller' "$(examples/controller/run | tail -n 1)" 'rows: 6; dimensions: 6 of 6; record: 1234567890123456789'
    same 'the controller sends what pack sends' "$(cat "$programs/sent")" "$("$programs/pack")"
    same 'another record on the controller' "$(examples/controller/run 0 | tail -n 1)" 'rows: 6; dimensions: 6 of 6; record: 0'
    same 'a record too large for the controller' "$(answer examples/controller/run 18446744073709551615 | tail -n 1)" \
        'examples/controller/run: the pack refused its record, or failed'
    same 'a record with a leading zero' "$(answer examples/controller/run 010)" \
        "64: examples/controller/run: '010' is no decimal number without leading zeros"
    same 'the firmware links no writable data' "$(examples/controller/run | sed -n 's/.*, \([0-9]*\) bytes of RAM.*/\1/p')" 0
fi

# ---- Quotations ----

printf '%s\n' "${shown#*: }" >"$programs/shown"
same 'README.md quotes nothing else than is shown' \
    "$(sed -n '/^    A pack with the record/,/^#/s/^    //p' README.md | grep -vxF '  ...' | grep -vxF -f "$programs/shown")" ''
same 'README.md quotes the record' "$(grep -cxF "    $whole" README.md)" 1
same 'README.md quotes the shortfall' "$(grep -cxF "    $short" README.md)" 1
same 'the link line of docs/C.md' "$(answer sh -c "$(block 'Build and link' 1)")" '0: '
same 'docs/C.md quotes Draw' "$(block Draw 1)" "$(cat examples/draw_ten_lines.c)"
same 'docs/C.md tells what Draw prints' "0: $(block Draw 2)" "$(answer "$programs/draw_ten_lines")"
same 'docs/C.md quotes Draw a batch' "$(block 'Draw a batch' 1)" "$(cat examples/batch_ten_lines.c)"
same 'docs/C.md tells what Draw a batch prints' "0: $(block 'Draw a batch' 2)" "$(answer "$programs/batch_ten_lines")"
same 'docs/C.md quotes Receive' "$(block Receive 1)" "$(cat examples/receive_ten_lines.c)"
same 'docs/C.md tells what Receive prints' "0: $(block Receive 2)" "$(answer "$programs/receive_ten_lines")"
for refusal in $(sed -n 's/^    [A-Z_]* = \([0-9]*\),.*/\1/p' tests/refusals.h); do
    same "docs/C.md has refusal $refusal" "$(grep -c "^| $refusal |" docs/C.md)" 1
done

# ---- Figures of document 01, and rows of order 7's fields ----

same 'Example 4 drawn' "$("$programs/pack" 928 2 6 3)" "$(message 2,6,3 011001 000100 000011)"
same 'Example 4 received' "$(message 2,6,3 011001 000100 000011 | cabinet)" '0: rows: 3; dimensions: 3 of 3; record: 928'
same 'the last of 2,6,3' "$("$programs/pack" 1394 2 6 3)" "$(message 2,6,3 000100 000010 000001)"
same 'row 21 of 3,2,1' "$(message 3,2,1 21 | cabinet)" '0: rows: 1; dimensions: 1 of 1; record: 2'
same 'row 23 of 4,2,1' "$(message 4,2,1 23 | cabinet)" '0: rows: 1; dimensions: 1 of 1; record: 2'
same 'row 25 of 8,2,1' "$(message 8,2,1 25 | cabinet)" '0: rows: 1; dimensions: 1 of 1; record: 7'
same 'three rows of 2,3,2' "$(message 2,3,2 110 011 101 | cabinet)" '0: rows: 3; dimensions: 2 of 2; record: 3'
same 'one row of 2,3,2' "$(message 2,3,2 110 | cabinet)" '8: rows: 1; dimensions: 1 of 2; missing: 1'
same 'a third dimension' "$(message 2,3,2 100 010 001 | cabinet)" \
    "9: rows: 3; dimensions: 3 of 2; too many: 1, so some rows are not this pack's"
same 'the empty matrix' "$("$programs/pack" 0 2 3 0 | cabinet)" '0: rows: 0; dimensions: 0 of 0; record: 0'
round_trip 0 2 3 0
round_trip 928 2 6 3
round_trip 1000000007 2 16 10
round_trip 9999999999 3 12 5
round_trip 9999999999 4 10 4
round_trip 9999999999 5 10 4
round_trip 9999999999 7 9 4
round_trip 9999999999 8 8 3
round_trip 9999999999999999999 8 10 3

# ---- Refusals, by the library's number and document 01's words ----

shape='n is outside 1 to 16 or k exceeds n'
same 'q = 6' "$(answer "$programs/pack" 0 6 6 3)" '1: pack: refused 1: q is none of 2, 3, 4, 5, 7 and 8'
same 'n = 17' "$(answer "$programs/pack" 0 2 17 3)" "2: pack: refused 2: $shape"
same 'k above n' "$(answer "$programs/pack" 0 2 3 4)" "2: pack: refused 2: $shape"
same '2,16,7' "$(answer "$programs/pack" 0 2 16 7)" '3: pack: refused 3: the number of spaces exceeds 2^64 - 1'
same 'index N' "$(answer "$programs/pack" 1395 2 6 3)" '5: pack: refused 5: the index is not below the number of spaces'
same 'settings heard' "$(message 2,17,3 | cabinet)" "2: cabinet: refused 2: $shape"
same 'a digit of q' "$(message 2,3,1 120 | cabinet)" '6: cabinet: refused 6: an entry is q or more'
same 'a digit of q to a neighbour' "$(message 2,3,1 120 | answer "$programs/neighbour" 1 0 1)" \
    '6: neighbour: refused 6: an entry is q or more'
# shellcheck disable=SC2046 # 64 rows
same '64 rows' "$(message 2,3,1 $(yes 010 | head -n 64) | cabinet)" '0: rows: 64; dimensions: 1 of 1; record: 2'
# shellcheck disable=SC2046 # 65 rows
same '65 rows' "$(message 2,3,1 $(yes 010 | head -n 65) | cabinet)" '13: cabinet: refused 13: there are more than 64 rows'

# ---- What can't be read ----

same 'no message' "$(answer "$programs/cabinet" </dev/null)" '64: cabinet: nothing was heard'
same 'settings of two numbers' "$(message 2,3 | cabinet)" "64: cabinet: the first line isn't q,n,k: 2,3"
same 'a row too long' "$(message 2,3,1 1000 | cabinet)" "64: cabinet: a row isn't 3 digits: 1000"
same 'a row of letters' "$(message 2,3,1 abc | cabinet)" "64: cabinet: a row isn't 3 digits: abc"
same 'a row without an end' "$(printf '2,3,1\n100' | cabinet)" '64: cabinet: a line is too long or has no end: 100'
same 'a record of 2^64' "$(answer "$programs/pack" 18446744073709551616)" \
    "64: pack: '18446744073709551616' is no decimal number below 2^64 without leading zeros"
same 'a leading zero' "$(answer "$programs/pack" 01)" "64: pack: '01' is no decimal number below 2^64 without leading zeros"
same 'half the settings' "$(answer "$programs/pack" 1 2 3)" '64: pack: usage: pack [RECORD [Q N K]]'
same 'more lost than passed on' "$(message 2,3,1 | answer "$programs/neighbour" 1 2 3)" '64: neighbour: more are lost than passed on'
same 'no words to a neighbour' "$(answer "$programs/neighbour")" '64: neighbour: usage: neighbour MIXTURES LOST SEED'

printf 'examples: %s passed, %s failed\n' "$passed" "$failed"
[ "$failed" -eq 0 ]
