#!/bin/sh
# Makes the images of these programs, and of the examples that the pages make, tests/runs/images/c_*.elf, by
# examples/start/image.sh: each by GNU's and by LLVM's compiler (Debian's gcc-riscv64-unknown-elf, clang, lld and llvm),
# struct_copies at three levels of optimization; thread_locals, heap and library with a C library
# (picolibc-riscv64-unknown-elf). hello and asserts have their lines too.
set -eu
cd "$(dirname "$0")"
examples=../../../examples
export CFLAGS=-Werror
for TOOLS in gnu llvm; do
    export TOOLS
    # make NAME OPTION.. SOURCE: an image of this compiler.
    make() {
        image=../images/c_$1_$TOOLS.elf
        shift
        $examples/start/image.sh "$@" "$image"
    }
    for program in memory_functions narrow_atomics sixteen_stacks; do make $program $program.c; done
    for program in thread_locals heap; do make $program --libc $program.c; done
    for level in O0 O2 Os; do
        CFLAGS="-Werror -$level" $examples/start/image.sh struct_copies.c "../images/c_struct_copies_${TOOLS}_$level.elf"
    done
    for program in inside lock right both stack; do make $program $examples/locks/c/$program.c; done
    make two_counters two_counters.c two_counters_other.c
    make library --libc $examples/c/library.c
    for program in sort primes search; do make $program $examples/c/$program.c; done
    make patch --writable $examples/selfmodifying/patch.c
    # From the root, so that the lines have the names that a page has.
    (
        cd ../../..
        examples/start/image.sh -g examples/start/hello.c tests/runs/images/c_hello_$TOOLS.elf
        examples/start/image.sh -g tests/runs/programs/asserts.c tests/runs/images/c_asserts_$TOOLS.elf
    )
done
chmod 644 ../images/c_*
