# The most stack that functions of a program can take, from what `objdump -d` prints: a function's own frame (what it
# pushes and subtracts from the stack pointer, and the return address), and the deepest of the functions that it calls.
# The 128 bytes that a function which calls nothing may use below the stack pointer are counted.
# -v pattern=NAME picks the functions whose name begins with NAME; the largest number is printed, 0 if there are none.
# A call into the C library (memcpy, memmove, memset, write) counts as nothing. A recursion, a call through a pointer
# and a frame without a fixed size are told on standard error.

function hex(digits,    k, value) {
    value = 0
    for (k = 1; k <= length(digits); k++)
        value = value * 16 + index("0123456789abcdef", substr(digits, k, 1)) - 1
    return value
}

/^[0-9a-f]+ <.*>:$/ {
    name = $0
    sub(/^[0-9a-f]+ </, "", name)
    sub(/>:$/, "", name)
    if (index(name, pattern) == 1) picked[name] = 1
    next
}

/\tpush/ { frame[name] += 8 }

# a frame of 128 bytes is taken by adding -128, and given back by subtracting it
/\tadd +\$0xffffffffffffff80,%rsp$/ { frame[name] += 128 }

/\tsub .*,%rsp$/ {
    if ($0 ~ /\$0xffffffff/) next
    if (match($0, /\$0x[0-9a-f]+/)) frame[name] += hex(substr($0, RSTART + 3, RLENGTH - 3))
    else odd[name] = "its frame has no fixed size"
}

# the stack pointer rounded down
/\tand .*,%rsp$/ { frame[name] += 64 }

/\tcall +\*%/ { odd[name] = "calls through a pointer" }

# a jump into another function counts as a call
/\t(call|jmp) .*<.*>$/ {
    callee = $0
    sub(/^[^<]*</, "", callee)
    sub(/>$/, "", callee)
    sub(/\+0x[0-9a-f]+$/, "", callee)
    if (callee != name) calls[name] = calls[name] SUBSEP callee
    else if ($0 ~ /\tcall/) odd[name] = "calls itself"
}

function deepest(f,    parts, count, k, most, here) {
    if (f in depth) return depth[f]
    if (f in under_way) { odd[f] = "is called again from below"; return 0 }
    under_way[f] = 1
    most = 128
    count = split(calls[f], parts, SUBSEP)
    for (k = 2; k <= count; k++) {
        here = parts[k] ~ /@plt/ ? 0 : deepest(parts[k])
        if (here > most) most = here
    }
    delete under_way[f]
    if (f in odd) print "stack: " f ": " odd[f] > "/dev/stderr"
    return depth[f] = frame[f] + 8 + most
}

END {
    largest = 0
    for (f in picked) if (deepest(f) > largest) largest = depth[f]
    print largest
}
