# Reads x86-64 machine code as `objdump -d -r --no-show-raw-insn` prints it, GNU's or LLVM's, and prints a line for each function of `names`, a
# list with spaces, or where that is empty, for each whose name starts with `prefix`: its name, the bytes of stack of its deepest path, and the
# functions of that path, each with what it adds. The last line has the largest frame: of all functions where `names` is empty, else of those reached.
#
# A frame is what a function pushes, what it takes off the stack pointer, what it uses below it, and the address that it returns to. It is
# followed along every jump. Where it can't be told, a line `can't tell: ..` says why, and the status is 1.

function fail(why) {
    if (!failed) print "can't tell: " why
    failed = 1
    exit 1
}

function hex(digits,    value, i) {
    for (i = 1; i <= length(digits); i++) value = value * 16 + index("0123456789abcdef", substr(digits, i, 1)) - 1
    return value
}

# A number in an operand, in decimal or as 0x and hex.
function number(text,    sign) {
    sign = sub(/^-/, "", text) ? -1 : 1
    return sign * (text ~ /^0x/ ? hex(substr(text, 3)) : text + 0)
}

/^[0-9a-f]+ <.*>:$/ {
    name = substr($0, index($0, "<") + 1)
    sub(/>:$/, "", name)
    if (name in first) fail("two functions are called " name)
    first[name] = count + 1
    last[name] = count
    functions[++function_count] = name
    starts_at[hex($1)] = name
    next
}

# A relocation belongs to the instruction before it. The compiler names a function by its section, and its start by 4 less. What lies at a place in
# memory is known only where that is an entry for one function.
/^[ \t]+[0-9a-f]+:[ \t]+R_X86_64_/ {
    if (op[count] !~ /^(call|j)/ || args[count] ~ /^\*/ && $2 !~ /GOTPCREL/) next
    target = $NF
    if (!sub(/-0x4$/, "", target)) fail(name " goes into the middle of " target)
    sub(/^\.text\./, "", target)
    other[count] = target
    next
}

/^[ \t]*[0-9a-f]+:[ \t]/ && function_count {
    address = $1
    sub(/:$/, "", address)
    line = $0
    sub(/^[ \t]*[0-9a-f]+:[ \t]+/, "", line)
    sub(/^(notrack|bnd|rep|repz|repnz|lock)[ \t]+/, "", line)
    sub(/[ \t]*[#<].*$/, "", line)
    operands = line
    sub(/^[^ \t]*/, "", operands)
    gsub(/[ \t]/, "", operands)
    sub(/[ \t].*$/, "", line)
    last[name] = ++count
    op[count] = line
    args[count] = operands
    index_of[name, hex(address)] = count
}

# The instruction i of f is reached with so many bytes in use.
function reach(f, i, bytes) {
    if (i > last[f]) fail(f " runs past its end")
    if (!(i in depth)) {
        depth[i] = bytes
        waiting[++waiting_count] = i
    } else if (depth[i] != bytes) {
        fail(f " comes to one place with " depth[i] " and with " bytes " bytes")
    }
}

function uses(f, bytes) {
    if (bytes > frame[f]) frame[f] = bytes
}

# f goes on in g, over so many bytes of its own.
function goes_to(f, g, bytes) {
    callees[f] = callees[f] (callees[f] == "" ? "" : "\n") bytes " " g
}

function target_of(i,    target) {
    target = args[i]
    sub(/^0x/, "", target)
    return hex(target)
}

# A jump: to the start of another function, through a table, or within the function.
function jump(f, i, bytes,    target) {
    if (i in other) {
        goes_to(f, other[i], bytes - 8)
    } else if (args[i] ~ /^\*/) {
        if (table_depth != "" && table_depth != bytes) fail(f " jumps through tables with " table_depth " and with " bytes " bytes")
        table_depth = bytes
    } else {
        target = target_of(i)
        if ((f, target) in index_of) reach(f, index_of[f, target], bytes)
        else if (target in starts_at) goes_to(f, starts_at[target], bytes - 8)
        else fail(f " jumps to " args[i])
    }
}

function call(f, i, bytes,    target) {
    if (i in other) {
        goes_to(f, other[i], bytes)
    } else if (args[i] ~ /^\*/) {
        fail(f " calls what " args[i] " holds")
    } else {
        target = target_of(i)
        if ((f, target) in index_of) fail(f " can call itself")
        if (!(target in starts_at)) fail(f " calls " args[i])
        goes_to(f, starts_at[target], bytes)
    }
}

# The bytes in use after the instruction i.
function moved(f, i, bytes,    o, a, by) {
    o = op[i]
    a = args[i]
    if (o ~ /^pushq?$/) return bytes + 8
    if (o ~ /^popq?$/ && a != "%rsp") return bytes - 8
    if (o !~ /^(push|pop|enter|leave)/ && (a !~ /(^|,)%[er]?sp$/ || o ~ /^(cmp|test)/)) return bytes
    by = a
    sub(/^\$/, "", by)
    sub(/[,(].*$/, "", by)
    if (a ~ /^\$-?[0-9][0-9a-fx]*,%rsp$/ && length(by) < 12) {
        if (o ~ /^subq?$/) return bytes + number(by)
        if (o ~ /^addq?$/) return bytes - number(by)
    }
    if (a ~ /^-?[0-9][0-9a-fx]*\(%rsp\),%rsp$/ && o ~ /^leaq?$/) return bytes - number(by)
    fail(f " does " o " " a)
}

# A function that calls none may use up to 128 bytes below the stack pointer.
function below(a) {
    if (!match(a, /-(0x)?[0-9a-f]+\(%rsp/)) return 0
    return number(substr(a, RSTART + 1, RLENGTH - 6))
}

function step(f, i,    o, bytes) {
    o = op[i]
    bytes = moved(f, i, depth[i])
    uses(f, bytes)
    uses(f, depth[i] + below(args[i]))
    if (o ~ /^ret/) {
        if (bytes != 8) fail(f " returns with " bytes - 8 " bytes left")
    } else if (o ~ /^jmp/) {
        jump(f, i, bytes)
    } else if (o !~ /^(ud2|hlt)/) {
        if (o ~ /^call/) call(f, i, bytes)
        if (o ~ /^j/) jump(f, i, bytes)
        reach(f, i + 1, bytes)
    }
}

# Follows f from its start, and then from each place that only a table of jumps leads to. What is left must be padding.
function follow(f,    i) {
    table_depth = ""
    reach(f, first[f], 8)
    for (i = first[f]; i <= last[f]; i++) {
        while (waiting_count) step(f, waiting[waiting_count--])
        if (i in depth || op[i] ~ /^(nop|int3|data16|cs)/ || op[i] args[i] == "xchg%ax,%ax") continue
        if (table_depth == "") fail(f " has code that nothing leads to")
        reach(f, i--, table_depth)
    }
}

# The stack of the deepest path from f on. A function that is not here counts with the address that it returns to.
function deepest(f,    calls, n, i, bytes, g, most) {
    if (f in total) return total[f]
    if (f in entered) fail(f " can call itself")
    entered[f] = 1
    if (!(f in first)) {
        path[f] = f " 8 (not in this file)"
        return total[f] = 8
    }
    follow(f)
    most = frame[f]
    path[f] = f " " most
    if (most > frame[largest]) largest = f
    n = split(callees[f], calls, "\n")
    for (i = 1; i <= n; i++) {
        bytes = calls[i] + 0
        g = substr(calls[i], index(calls[i], " ") + 1)
        if (bytes + deepest(g) <= most) continue
        most = bytes + total[g]
        path[f] = f " " bytes ", " path[g]
    }
    return total[f] = most
}

END {
    if (failed) exit 1
    if (names == "") {
        for (i = 1; i <= function_count; i++) {
            deepest(functions[i])
            if (index(functions[i], prefix) == 1) names = names " " functions[i]
        }
    }
    n = split(names, asked, " ")
    if (!n) fail("no function is called " prefix "..")
    for (i = 1; i <= n; i++) {
        if (!(asked[i] in first)) fail("no function is called " asked[i])
        print asked[i] "\t" deepest(asked[i]) "\t" path[asked[i]]
    }
    print "largest frame\t" frame[largest] "\t" largest
}
