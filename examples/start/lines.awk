# Of a disassembly with lines (objdump -d -l, or llvm-objdump's): each word of the code whose source is told, as its
# address, the file and the number of the line. GNU's has a place as `FILE:LINE`, LLVM's as `; FILE:LINE`. `folder` is the
# one that the compiler was called in: below it a file is named as from there.
/^[0-9a-f]+ <.*>:$/ { known = 0; next }
match($0, /^ *[0-9a-f]+:[ \t]/) {
    address = $1
    sub(/:$/, "", address)
    if (known)
        printf "%8s %s %s\n", address, file, line
    next
}
{
    sub(/^; /, "")
    sub(/ \(discriminator [0-9]+\)$/, "")
}
match($0, /:[0-9]+$/) {
    file = substr($0, 1, RSTART - 1)
    line = substr($0, RSTART + 1)
    if (index(file, folder "/") == 1)
        file = substr(file, length(folder) + 2)
    while (sub(/^\.\//, "", file))
        ;
    known = 1
}
