# Of a disassembly (objdump -d, or llvm-objdump's): how many bytes of stack the deepest calls from `_start` take, and by which way, as
# `BYTES FUNCTION FUNCTION ..`. Behind a `+` they may be more: a call by a pointer, a function that calls itself or an array whose size
# isn't known. What a function takes is what it subtracts from sp; a path that is there may never be gone.
function hex(text,    i, n) {
    for (i = 1; i <= length(text); i++)
        n = 16 * n + index("0123456789abcdef", substr(text, i, 1)) - 1
    return n
}

# An address, from the start of RAM on: some awk have no whole numbers above 2^31 as keys.
function address(text) { return hex(text) - 2147483648 }

function bits(n, from, count) { return int(n / 2 ^ from) % 2 ^ count }

function as_signed(n, count) { return n >= 2 ^ (count - 1) ? n - 2 ^ count : n }

# Where a JAL goes, from itself.
function jump(n) { return bits(n, 21, 10) * 2 + bits(n, 20, 1) * 2048 + bits(n, 12, 8) * 4096 - bits(n, 31, 1) * 1048576 }

# sp goes down by so many bytes; upwards it is at a function's end.
function down(bytes) {
    if (bytes > 0)
        own[here] += bytes
}

# A call, or a jump that may be one, of register rd. With t0 it is of a function that saves registers for its caller.
function call(target, rd) {
    if (rd == 5)
        saver[here] = target
    else if (rd != 0 && target == here)
        open[here] = 1
    else
        calls[here, ++count[here]] = target
}

function instruction(n, pc,    op, rd, rs1, imm) {
    op = bits(n, 0, 7); rd = bits(n, 7, 5); rs1 = bits(n, 15, 5); imm = as_signed(bits(n, 20, 12), 12)
    if (op == 111)                                                     # jal
        call(pc + jump(n), rd)
    else if (op == 103 && rs1 in from_pc)                              # jalr behind auipc
        call(from_pc[rs1] + imm, rd)
    else if (op == 103 && !(rd == 0 && (rs1 == 1 || rs1 == 5)))        # by a pointer; the others return
        open[here] = 1
    else if (op == 19 && rd == 2 && rs1 == 2 && bits(n, 12, 3) == 0)   # addi sp, sp, imm
        down(-imm)
    else if (op == 51 && rd == 2 && rs1 == 2 && bits(n, 12, 3) == 0) { # add or sub sp, sp, register
        if (!(bits(n, 20, 5) in known))
            open[here] = here != start
        else
            down(bits(n, 30, 1) ? known[bits(n, 20, 5)] : -known[bits(n, 20, 5)])
    }
    keep(op, n, pc, rd, rs1, imm)
}

# What is known of registers: a constant that LUI and ADDI make, and an address from AUIPC.
function keep(op, n, pc, rd, rs1, imm,    before, was) {
    was = rs1 in known
    before = was ? known[rs1] : 0
    if (op == 99 || op == 35)                                          # branches and stores write no register
        return
    delete known[rd]
    delete from_pc[rd]
    if (op == 55)
        known[rd] = as_signed(bits(n, 12, 20), 20) * 4096
    else if (op == 23)
        from_pc[rd] = pc + as_signed(bits(n, 12, 20), 20) * 4096
    else if (op == 19 && bits(n, 12, 3) == 0 && (rs1 == 0 || was))
        known[rd] = before + imm
}

# The stack that a function and what it calls take; `way` is filled in, and `more` says whether it may be more.
function depth(f,    k, deepest, target, found) {
    if (f in done)
        return done[f]
    if (f in visiting) {
        more = 1
        return 0
    }
    visiting[f] = 1
    if (open[f])
        more = 1
    for (k = 1; k <= count[f]; k++) {
        target = calls[f, k]
        if (target != f && target in name && (found = depth(target)) > deepest) {
            deepest = found
            way[f] = target
        }
    }
    delete visiting[f]
    return done[f] = own[f] + (saver[f] in own ? own[saver[f]] : 0) + deepest
}

/^[0-9a-f]+ <.*>:$/ {
    here = address($1)
    name[here] = substr($2, 2, length($2) - 3)
    own[here] += 0
    if (name[here] == "_start")
        start = here
    split("", known)
    split("", from_pc)
    next
}
/^ *[0-9a-f]+:[ \t]/ {
    instruction(hex(length($2) == 8 ? $2 : $5 $4 $3 $2), address(substr($1, 1, length($1) - 1)))
}

END {
    bytes = depth(start)
    printf "%d%s", bytes, more ? "+" : ""
    for (f = way[start]; f in name; f = way[f])
        printf " %s", name[f]
    print ""
}
