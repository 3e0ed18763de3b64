#!/bin/sh
# image.sh [OPTION..] SOURCE.. IMAGE: makes an image for smtsim of C and assembly sources, by GNU's compiler for RISC-V
# where there is one, else by LLVM's, and says on standard error which it was. One C source at the least: start.s is
# linked, which gives each hart a stack and calls `run_hart` (hart.h). Assembly alone: it has its own `_start`. The
# functions of memory/ and atomics/ are linked where they are called.
#   --libc       the C library picolibc in their place, with the start of start_libc.s; `main` will do for `run_hart`
#   --writable   the program may write its own code
#   -g           writes IMAGE.lines too (its name without .elf): the source line of each word of the code
#   --harts N    stacks for N harts, 1 to 16, in place of 16
#   --stack N    so many bytes for each stack, in place of 2048 (4096 for 8 harts or fewer)
#   --ram N      so many bytes of memory, in place of 65536: the configuration has to say the same
# TOOLS=gnu or TOOLS=llvm before the command takes these. Flags of your own for C go into CFLAGS; PICOLIBC is the C
# library's folder. HARTS, STACK and RAM before the command are the same as the options.
set -eu
here=$(cd "$(dirname "$0")" && pwd)

refuse() {
    echo "image.sh: $1" >&2
    exit 2
}

# A number in decimal digits, from the least to the greatest that it may be.
number() {
    case $2 in
    '' | *[!0-9]* | 0?* | ?????????*) refuse "$1 wants a number from $3 to $4, and has '$2'" ;;
    esac
    if [ "$2" -lt "$3" ] || [ "$2" -gt "$4" ]; then refuse "$1 wants a number from $3 to $4, and has '$2'"; fi
}

library=no
writable=no
lines=no
while [ $# -gt 0 ]; do
    case $1 in
    --libc) library=yes ;;
    --writable) writable=yes ;;
    -g) lines=yes ;;
    --harts | --stack | --ram)
        if [ $# -eq 1 ]; then refuse "$1 wants a number behind it"; fi
        case $1 in
        --harts) HARTS=$2 ;;
        --stack) STACK=$2 ;;
        --ram) RAM=$2 ;;
        esac
        shift
        ;;
    -*) refuse "there is no option $1: --libc, --writable, -g, --harts N, --stack N, --ram N" ;;
    *) break ;;
    esac
    shift
done
harts=${HARTS:-16}
number --harts "$harts" 1 16
stack=${STACK:-$([ "$harts" -gt 8 ] && echo 2048 || echo 4096)}
ram=${RAM:-65536}
number --ram "$ram" 4096 16777216
if [ $((ram % 4096)) -ne 0 ]; then refuse "--ram wants a multiple of 4096, and has '$ram'"; fi
number --stack "$stack" 16 "$ram"
if [ $((stack % 16)) -ne 0 ]; then refuse "--stack wants a multiple of 16, and has '$stack'"; fi

if [ $# -lt 2 ]; then refuse "image.sh [OPTION..] SOURCE.. IMAGE: C or assembly sources, and the image to be made"; fi

# GNU's tools go by their target's name.
gnu=
for target in riscv64-unknown-elf riscv64-linux-gnu; do
    if command -v $target-gcc >/dev/null; then gnu=$target && break; fi
done
TOOLS=${TOOLS:-${gnu:+gnu}}
case ${TOOLS:=llvm} in
gnu)
    if [ -z "$gnu" ]; then refuse "there is no riscv64-unknown-elf-gcc: install gcc-riscv64-unknown-elf"; fi
    compiler=$gnu-gcc
    # For GNU's assembler FENCE.I is of an extension of its own; and the compiler for Linux makes all for any address.
    compile="$compiler -march=rv32ima_zifencei -mabi=ilp32 -fno-pie"
    # No loop becomes a call of memcpy or memset: within these it would call itself.
    no_calls="-fno-builtin -fno-tree-loop-distribute-patterns"
    link="$gnu-ld -m elf32lriscv --no-relax"
    if [ $writable = yes ] && $gnu-ld --help | grep -q -e --no-warn-rwx-segments; then
        link="$link --no-warn-rwx-segments"
    fi
    disassemble=$gnu-objdump
    ;;
llvm)
    compiler=clang
    if ! command -v clang >/dev/null || ! command -v ld.lld >/dev/null; then
        refuse "there is no compiler for RISC-V: install gcc-riscv64-unknown-elf, or clang and lld"
    fi
    compile="clang --target=riscv32-unknown-elf -march=rv32ima -mabi=ilp32 -mno-relax"
    no_calls="-fno-builtin"
    link="ld.lld"
    disassemble=llvm-objdump
    ;;
*) refuse "TOOLS is gnu or llvm" ;;
esac
if [ $lines = yes ] && ! command -v $disassemble >/dev/null; then
    refuse "-g wants $disassemble: install $([ $TOOLS = gnu ] && echo binutils-$gnu || echo llvm)"
fi
for_all="-std=c11 -O2 -Wall -Wextra -fno-pic"
alone="$for_all -ffreestanding $no_calls -I$here -I$here/memory"
work=$(mktemp -d)
trap 'rm -rf "$work"' EXIT

# What goes with the program: its start, the flags for its sources, and libraries of which the linker takes what is
# called. Where there is GNU's compiler for bare machines, its own is among them: for floating point, to divide numbers
# of 64 bits, and for the older functions on bytes and halves (__sync_fetch_and_add).
mkdir "$work/library"
bare=riscv64-unknown-elf-gcc
libraries=
if command -v $bare >/dev/null; then
    for of in rv32im rv32ia; do
        libraries="$libraries $($bare -march=$of -mabi=ilp32 -print-libgcc-file-name)"
    done
fi
if [ $library = yes ]; then
    if [ -z "${PICOLIBC:-}${libraries}" ]; then
        refuse "--libc wants the functions of riscv64-unknown-elf-gcc too: install gcc-riscv64-unknown-elf"
    fi
    picolibc=${PICOLIBC:-/usr/lib/picolibc/riscv64-unknown-elf}
    folder=$($bare -march=rv32im -mabi=ilp32 -print-multi-directory 2>/dev/null || echo rv32im/ilp32)
    archive=$picolibc/lib/$folder/libc.a
    if [ ! -e "$archive" ]; then
        refuse "there is no $archive: install picolibc-riscv64-unknown-elf, or say where it is by PICOLIBC"
    fi
    start=$here/start_libc.s
    script=program_libc.ld
    # The library's headers come before those of the same name here.
    c_flags="$for_all -ftls-model=local-exec -isystem $picolibc/include -idirafter $here"
    parts="$here/libc $here/atomics"
    libraries="$archive $libraries"
    link="$link --gc-sections"
else
    start=$here/start.s
    script=program.ld
    c_flags=$alone
    parts="$here/memory $here/atomics"
fi
for part in $parts; do
    for source in "$part"/*.c; do
        name=${source##*/}
        $compile $c_flags -c -o "$work/library/${name%.c}.o" "$source"
    done
done
case $TOOLS in
gnu)
    $gnu-ar rc "$work/library.a" "$work"/library/*.o
    library_words="--start-group $work/library.a $libraries --end-group"
    ;;
llvm) library_words="--start-lib $work/library/*.o --end-lib $libraries" ;; # what stands between is as in an archive
esac

# Every word but the last is a source.
if [ $lines = yes ]; then compile="$compile -g"; fi
objects=
count=0
needs_start=$library
while [ $# -gt 1 ]; do
    count=$((count + 1))
    case $1 in
    *.c)
        # Each word of CFLAGS is one flag.
        $compile $c_flags ${CFLAGS:-} -c -o "$work/$count.o" "$1"
        needs_start=yes
        ;;
    *.s | *.S) $compile -c -o "$work/$count.o" "$1" ;;
    *) refuse "$1 is neither a .c nor a .s file" ;;
    esac
    objects="$objects $work/$count.o"
    shift
done
image=$1
if [ $needs_start = yes ]; then
    $compile -c -o "$work/start.o" "$start"
    objects="$work/start.o $objects"
fi

# The linker's script, with code that may be written or not; and a second one that keeps what `-g` has made.
flags=$([ $writable = yes ] && echo 7 || echo 5)
for of in program program_libc; do sed "s/FLAGS(5)/FLAGS($flags)/" "$here/$of.ld" >"$work/$of.ld"; done
# Pages of four bytes: else the first segment would begin below RAM, with the headers of the file.
sizes="--defsym=ram_size=$ram --defsym=stack_size=$stack --defsym=most_harts=$harts"
link="$link $sizes -z max-page-size=4 --build-id=none -L $work -T $work/$script"
$link --discard-locals --orphan-handling=error -o "$image" $objects $library_words

# The lines of the sources stand in no image: they are read from a second link, which puts all code where the first did.
if [ $lines = yes ]; then
    for of in program program_libc; do sed -i 's/ \*(\.debug\*)//' "$work/$of.ld"; done
    $link --orphan-handling=place -o "$work/with_lines" $objects $library_words
    $disassemble -d -l "$work/with_lines" | awk -v folder="$PWD" -f "$here/lines.awk" >"${image%.elf}.lines"
fi

# What calls take of a stack is read from the code, where there is what disassembles it.
stacks=
if [ $needs_start = yes ]; then
    stacks="$harts stacks of $stack bytes, "
    if command -v $disassemble >/dev/null; then
        # The bytes, with a + where they may be more, and the functions of the deepest way.
        set -- $($disassemble -d "$image" | awk -f "$here/stack.awk")
        bytes=${1%+}
        taken=$bytes$([ "$1" = "$bytes" ] || echo ' or more')
        stacks="$harts stacks of $stack bytes with $taken taken, "
        shift
        if [ "$bytes" -gt "$stack" ]; then
            fewer=$([ "$harts" -le 8 ] || [ "$bytes" -gt 4096 ] || echo '--harts 8 or fewer, or ')
            echo "image.sh: calls of $* take $taken bytes of a stack of $stack: say $fewer--stack N" >&2
        fi
    fi
fi
said=$($compiler --version | head -n 1)
too=$([ "$ram" -eq 65536 ] || echo ", and so ram = $ram in the configuration")
echo "image.sh: $image by $said: $stacks$ram bytes of memory$too" >&2
