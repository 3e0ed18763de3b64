#!/bin/sh
# Tries examples/start/image.sh by both compilers: what it refuses, what it says, and that it makes the images that are kept. It needs
# what tests/runs/programs/make.sh needs, so it is run by hand. Its last line counts: N passed, M failed.
set -u
root=$(cd "$(dirname "$0")/.." && pwd) || exit 1
image_sh=$root/examples/start/image.sh
work=$(mktemp -d) || exit 1
trap 'rm -rf "$work"' EXIT
cd "$work" || exit 1
passed=0
failed=0

# is WHAT WANTED FOUND: counts, and says what differs.
is() {
    if [ "$2" = "$3" ]; then
        passed=$((passed + 1))
    else
        failed=$((failed + 1))
        printf 'FAILED: %s\nwanted: %s\nfound:  %s\n' "$1" "$2" "$3"
    fi
}

# said WORDS: what image.sh says, without the compiler's version, and its status.
said() { "$image_sh" "$@" 2>&1 | sed 's/ by .*:/ by ..:/'; }

# The flags of the code of small.elf, as R, W and E.
code_flags() { readelf -lW small.elf | sed -n 's/^ *LOAD *\([^ ]* *\)\{5\}\(.*\) 0x.*/\2/p' | head -n 1 | tr -d ' '; }

printf '#include "hart.h"\nuint32_t run_hart(uint32_t hart, uint32_t harts) { return hart / harts; }\n' >small.c
cat >deep.c <<'C'
#include "hart.h"
static uint32_t __attribute__((noinline)) inner(uint32_t place)
{
    volatile char room[3000];
    room[place] = 1;
    return room[place + 1];
}
uint32_t run_hart(uint32_t hart, uint32_t harts) { return inner(hart) + inner(harts); }
C
cat >again.c <<'C'
#include "hart.h"
static uint32_t __attribute__((noinline)) depth(uint32_t k) { return k < 2 ? put_byte(k), 1 : depth(k - 1) + depth(k - 2); }
uint32_t run_hart(uint32_t hart, uint32_t harts) { return depth(hart + harts); }
C
printf '#include "hart.h"\nuint8_t room[40000];\nuint32_t run_hart(uint32_t hart, uint32_t harts) { return room[hart + harts]; }\n' >large.c

for TOOLS in gnu llvm; do
    export TOOLS
    is "$TOOLS: sizes" 'image.sh: small.elf by ..: 16 stacks of 2048 bytes with 0 taken, 65536 bytes of memory' \
        "$(said small.c small.elf)"
    is "$TOOLS: few harts" 'image.sh: small.elf by ..: 4 stacks of 4096 bytes with 0 taken, 65536 bytes of memory' \
        "$(said --harts 4 small.c small.elf)"
    is "$TOOLS: harts by the environment" 'image.sh: small.elf by ..: 9 stacks of 2048 bytes with 0 taken, 131072 bytes of memory, and so ram = 131072 in the configuration' \
        "$(HARTS=9 RAM=131072 said small.c small.elf)"
    is "$TOOLS: a stack too small" 'image.sh: calls of run_hart inner take .. bytes of a stack of 2048: say --harts 8 or fewer, or --stack N' \
        "$(said deep.c deep.elf | sed -n 's/take 3[01][0-9][0-9] bytes/take .. bytes/p')"
    is "$TOOLS: a stack too small of eight" 'image.sh: calls of run_hart inner take .. bytes of a stack of 1024: say --stack N' \
        "$(said --stack 1024 --harts 8 deep.c deep.elf | sed -n 's/take 3[01][0-9][0-9] bytes/take .. bytes/p')"
    is "$TOOLS: a stack that is large enough" 'with .. taken' \
        "$(said --harts 8 deep.c deep.elf | sed -n 's/.*\(with \)3[01][0-9][0-9]\( taken\).*/\1..\2/p')"
    is "$TOOLS: a function that calls itself" 'or more taken' \
        "$(said again.c again.elf | sed -n 's/.*with [0-9]* \(or more taken\), .*/\1/p')"
    is "$TOOLS: assembly alone" 'image.sh: hello.elf by ..: 65536 bytes of memory' \
        "$(said "$root/examples/start/hello.s" hello.elf)"
    is "$TOOLS: no room for the stacks" 1 \
        "$(said large.c large.elf | sort -u | grep -c 'the data reach into the stacks: fewer stacks (image.sh --harts), smaller ones (--stack) or more memory (--ram)')"
    is "$TOOLS: room for fewer" 'image.sh: large.elf by ..: 4 stacks of 4096 bytes with 0 taken, 65536 bytes of memory' \
        "$(said --harts 4 large.c large.elf)"
    is "$TOOLS: symbols" 'T run_hart' \
        "$("$image_sh" small.c small.elf 2>/dev/null; nm small.elf | grep run_hart | cut -d ' ' -f 2-)"
    is "$TOOLS: code that may be written" 'RWE' "$("$image_sh" --writable small.c small.elf 2>/dev/null; code_flags)"
    is "$TOOLS: code that may not be" 'RE' "$("$image_sh" small.c small.elf 2>/dev/null; code_flags)"
    is "$TOOLS: lines" 'small.c 2' \
        "$("$image_sh" -g small.c small.elf 2>/dev/null; tail -n 1 small.lines | cut -d ' ' -f 2-)"
    for program in memory_functions narrow_atomics sixteen_stacks; do
        "$image_sh" "$root/tests/runs/programs/$program.c" again.elf 2>/dev/null
        cmp -s again.elf "$root/tests/runs/images/c_${program}_$TOOLS.elf"
        is "$TOOLS: $program as it is kept" 0 $?
    done
done
unset TOOLS
is 'no words' 2 "$("$image_sh" 2>/dev/null; echo $?)"
is 'no number of harts' 'image.sh: --harts wants a number behind it' "$(said --harts)"
is 'a source for a number' "image.sh: --harts wants a number from 1 to 16, and has 'small.c'" \
    "$(said --harts small.c small.elf)"
is 'seventeen harts' "image.sh: --harts wants a number from 1 to 16, and has '17'" \
    "$(said --harts 17 small.c small.elf)"
is 'half a page' "image.sh: --ram wants a multiple of 4096, and has '6144'" "$(said --ram 6144 small.c small.elf)"
is 'a number with a zero before it' \
    "image.sh: --stack wants a number from 16 to 65536, and has '0800'" "$(said --stack 0800 small.c small.elf)"
is 'a stack of 100' "image.sh: --stack wants a multiple of 16, and has '100'" "$(said --stack 100 small.c small.elf)"
is 'an unknown option' 'image.sh: there is no option --fast: --libc, --writable, -g, --harts N, --stack N, --ram N' \
    "$(said --fast small.c small.elf)"
is 'no source' 'image.sh: small.txt is neither a .c nor a .s file' "$(said small.txt small.elf)"
is 'no such compiler' 'image.sh: TOOLS is gnu or llvm' "$(TOOLS=tcc said small.c small.elf)"
echo "$passed passed, $failed failed"
[ "$failed" -eq 0 ]
