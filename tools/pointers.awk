# awk -f tools/pointers.awk MODULE.ll: refuses a module that could mean another thing where a pointer has 32 bits and not 64.
# For each fault a line 'LINE: what is wrong: the text', at most 20, then their number, and exit 1. Else a few numbers, and exit 0.
#
# Shown is that each run with 64-bit pointers is one with 32-bit pointers too, step by step: every integer is the same, and every pointer leads
# to the same byte. In memory a pointer keeps its 8 bytes; with 32 bits only the first 4 are used, and the others are at most copied.
# That is so if:
# 1. No instruction sees the width: each line is of a form in the list below. None makes an integer of a pointer or a pointer of an integer,
#    compares or chooses between pointers, or takes an offset or an alignment from the machine. The one exception is that an exported
#    function asks whether a pointer of its caller's is null, which has the same answer with both widths. The one size that is the machine's
#    is that of an `alloca ptr`; it only ever holds a pointer.
# 2. No byte of memory is in a pointer for one access and in an integer for another, nor at two places within a pointer, and no copy cuts a
#    pointer. So what is read as an integer was written as one, and what is read as a pointer was written as that pointer. A fill with 0 is
#    neither: read before anything else is written, it is 0 or null with both widths.
# Bytes are told apart by the object that they are in (an alloca or a parameter) and their offset. Where an object is handed to a call or
# copied, its bytes are joined to the others into classes, over all functions and all calls of each. A pointer that was read from memory is
# only known to lead to data: all that has its address stored, is indexed by a variable or is lent by C. Data is one class, of integers.
#
# Not shown: that an index which is a variable fits 32 bits and stays within its object, that data is as long and as aligned as it is used,
# and that nothing is read before it is written or after it is gone. The proofs show this, of slices with fewer than 2^31 bytes. How much
# stack is used is shown by neither. A text that LLVM refuses need not be refused here; what is compiled has to be the text looked at.

BEGIN {
    integer = "i(1|8|16|32|64)"
    stored = "(i8|i16|i32|i64|ptr)"
    # Two integers in one register, '{ i64, i64 }' in the module. The second stands in memory where its own alignment puts it.
    pair = "pair_i(8|16|32|64)_i(8|16|32|64)"
    register = "%[a-z]+[0-9]+"
    label = "%[a-z]+([.][0-9]+)?"
    value = "(" register "|-?[0-9]+|true|false)"
    name = "@(\"[A-Za-z0-9_:.+*#'<>=,{}\\[\\]]+\"|[a-z0-9_.]+)"
    split("i8 i16 i32 i64 ptr", types, " "); split("1 2 4 8 8", widths, " ")
    for (i = 1; i <= 5; i++) width[types[i]] = widths[i]

    sets("alloca", "(\\[[0-9]+ x i8\\]|" stored "), align [0-9]+")
    sets("load", "(" stored "|" pair "), ptr " register ", align [0-9]+(, !range ![0-9]+)?(, !noundef ![0-9]+)?")
    sets("getelementptr", "(inbounds nuw )?i8, ptr " register ", i64 (" register "|-?[0-9]+)")
    sets("icmp", "((eq|ne|u[lg][te]) " integer " " value ", " value "|eq ptr " register ", null)")
    sets("extractvalue", pair " " register ", [01]")
    sets("zext", integer " " value " to " integer)
    sets("trunc", "(nuw )?" integer " " value " to " integer)
    count = split("add sub mul shl udiv urem lshr and or xor", arithmetic, " ")
    for (i = 1; i <= count; i++) {
        sets(arithmetic[i], (i <= 4 ? "(nuw )?" : "") integer " " value ", " value)
        is_arithmetic[arithmetic[i]] = 1
    }
    form["store"] = "^  store " stored " " value ", ptr " register ", align [0-9]+$"
    form["call"] = "^  (" register " = call (" integer "|" pair ")|call void) " name "[(].*[)]$"
    form["br"] = "^  br (label " label "|i1 " value ", label " label ", label " label ")$"
    form["switch"] = "^  switch " integer " " value ", label " label " \\[$"
    form["ret"] = "^  ret (void|" integer " " value "|" pair " " register ")$"
    form["unreachable"] = "^  unreachable$"
    an_arm = "^    " integer " -?[0-9]+, label " label "$"
    a_label = "^[a-z]+([.][0-9]+)?:( +; (preds = .*|No predecessors!))?$"
    a_definition = "^define (internal )?(void|noundef (i8|i16|i32|i64)|(noundef )?" pair "|noundef zeroext i1) " name "[(].*[)] #[0-9]+ [{]$"
    a_parameter = "^((i8|i16|i32|i64)( noundef)?|ptr noundef|i1 noundef zeroext) " register "$"

    layout = "target datalayout = \"e-m:e-p270:32:32-p271:32:32-p272:64:64-i64:64-i128:128-f80:128-n8:16:32:64-S128\""
    triple = "target triple = \"x86_64-unknown-linux-gnu\""
    memmove = "void @llvm.memmove.p0.p0.i64(ptr writeonly captures(none), ptr readonly captures(none), i64, i1 immarg)"
    memset = "void @llvm.memset.p0.i64(ptr writeonly captures(none), i8, i64, i1 immarg)"
    # What a definition and each declaration may promise; the numbers of these groups are the module's own.
    promises[""] = "nounwind \"probe-stack\"=\"inline-asm\" \"stack-probe-size\"=\"3072\" \"target-cpu\"=\"x86-64-v2\""
    promises[memmove] = "nocallback nofree nounwind willreturn memory(argmem: readwrite)"
    promises[memset] = "nocallback nofree nounwind willreturn memory(argmem: write)"
    promises["void @llvm.trap()"] = "cold noreturn nounwind memory(inaccessiblemem: write)"
    for (head in promises) is_promise[promises[head]] = 1
    objects = inside = in_switch = 0
    DATA = 0 # the object, and later the byte, that stands for all data
}

function sets(op, rest) { form[op] = "^  " register " = " op " " rest "$" }

function fault(line, what,    shown) {
    if ((line, what) in told) return
    told[line, what] = 1
    if (++faults > 20) return
    shown = text[line]; sub(/^ +/, "", shown)
    print line ": " what ": " substr(shown, 1, 120)
}

# ---- part 1: the forms

{
    text[NR] = $0
    # A name may have the type of no value in it; its parentheses are none of a call.
    while (match($0, /@"[^"]*[(][)][^"]*"/)) {
        two = substr($0, RSTART, RLENGTH); sub(/[(][)]/, "<>", two)
        $0 = substr($0, 1, RSTART - 1) two substr($0, RSTART + RLENGTH)
    }
    while (match($0, /[{] i(8|16|32|64), i(8|16|32|64) [}]/)) {
        two = substr($0, RSTART + 2, RLENGTH - 4); sub(/, /, "_", two)
        $0 = substr($0, 1, RSTART - 1) "pair_" two substr($0, RSTART + RLENGTH)
    }
}

/^$/ || /^;/ { next }

!inside && /^define / { definition(); next }
!inside { outside(); next }

$0 == "}" && !in_switch { inside = 0; next }
in_switch && $0 == "  ]" { in_switch = 0; next }
in_switch { if ($0 !~ an_arm || $1 != switched) fault(NR, "another form of an arm"); next }
$0 ~ a_label { if ((block == "") != ($1 == "start:")) fault(NR, "a first block that is not start"); block = $1; next }

{
    op = $2 == "=" ? $3 : $1
    if (block == "") fault(NR, "a first block that is not start")
    else if (!(op in form)) fault(NR, "an instruction that is not in the list")
    else if ($0 !~ form[op]) fault(NR, "another form of " op)
    else if (op == "call") a_call()
    else instruction()
}

# Lines that belong to no function.
function outside(    head, at) {
    if ($0 == layout) { layouts++; return }
    if ($0 == triple) { triples++; return }
    if (/^source_filename = "[^"]*"$/ || /^!llvm[.]ident = ![{]![0-9]+[}]$/) return
    if (/^![0-9]+ = ![{](|i8 0, i8 2|!"rattle logic=[0-9a-f]+")[}]$/) return
    if (/^attributes #[0-9]+ = [{] .* [}]$/) {
        at = index($0, "{")
        if ($2 in group) fault(NR, "a group of attributes twice")
        group[$2] = substr($0, at + 2, length($0) - at - 3)
        sub(/^cold noinline /, "", group[$2]) # that a function stands apart changes nothing that it does
        if (!(group[$2] in is_promise)) { fault(NR, "attributes that are not in the list"); is_strange[$2] = 1 }
        return
    }
    if (/^declare .* #[0-9]+$/) {
        head = substr($0, 9); sub(/ #[0-9]+$/, "", head)
        if (head != "" && head in promises) { attributes_at(NR, $NF, promises[head]); return }
        fault(NR, "a declaration that is not in the list")
        return
    }
    fault(NR, "a line that is not in the list")
}

function attributes_at(line, number, wanted) { has_attributes[++attributed] = line; number_of[line] = number; wanted_at[line] = wanted }

# The text between the first '(' and the last ')', in parts; it is in LIST, and the number of parts is the result.
function in_parentheses(line, list) {
    sub(/^[^(]*[(]/, "", line)
    sub(/[)][^)]*$/, "", line)
    return split(line, list, ", ")
}

function definition(    list, parts, n, i, type, count) {
    inside = 1; block = ""; in_switch = 0
    split("", type_of); split("", object_at); split("", offset_at)
    if ($0 !~ a_definition) { here = ""; fault(NR, "another form of definition"); return }
    match($0, name); here = substr($0, RSTART, RLENGTH)
    if (here in defined) fault(NR, "a name that is defined twice")
    if (here ~ /^@"?llvm[.]/) fault(NR, "a definition of what is LLVM's")
    defined[here] = NR; functions++
    is_exported[here] = $2 != "internal"
    result[here] = /^define (internal )?void / ? "void" : $0 ~ "^define (internal )?noundef zeroext " ? "i1" : result_type()
    attributes_at(NR, $(NF - 1), promises[""])

    takes[here] = ""
    n = in_parentheses($0, list)
    for (i = 1; i <= n; i++) {
        if (list[i] !~ a_parameter) { fault(NR, "another form of parameter"); continue }
        type = substr(list[i], 1, index(list[i], " ") - 1)
        takes[here] = takes[here] " " type
        count = split(list[i], parts, " ")
        new_register(parts[count], type)
        if (type != "ptr") continue
        parameter[here, i] = new_object()
        points(parts[count], objects, 0)
        if (is_exported[here]) lend(objects) # C lends data
    }
    if (is_exported[here]) exported_form()
}

# The type of a result, behind 'define', 'internal' and 'noundef'.
function result_type(    at) {
    at = is_exported[here] ? 2 : 3
    return $at == "noundef" ? $(at + 1) : $at
}

# The build makes 32-bit lengths of just the i64 that follow a pointer. A result that is narrower than a register C expects to be widened,
# which the module does not promise.
function exported_form(    list, n, i) {
    exported++
    if (here !~ /^@souk_[a-z0-9_]+$/) fault(NR, "an exported function that is not named souk_..")
    if (result[here] !~ /^(void|i32|i64)$/) fault(NR, "an exported function with another result than i32, i64 or none")
    n = split(takes[here], list, " ")
    for (i = 1; i <= n; i++) {
        if (list[i] == "ptr" && list[i + 1] != "i64") fault(NR, "a pointer without its length in an exported function")
        if (list[i] == "i64" && list[i - 1] != "ptr") fault(NR, "an i64 that is no pointer's length in an exported function")
    }
}

function new_register(reg, type) {
    if (reg in type_of) fault(NR, "a register that is set twice")
    type_of[reg] = type
}

# Whether WHAT is a value of this type: a register that is set above, or a constant; of pointers there are none.
function is_a(type, what) {
    if (what ~ /^%/) {
        if (!(what in type_of)) fault(NR, "a register that is not set above")
        else if (type_of[what] != type) fault(NR, "a register of another type")
        else return 1
    } else if (type == "ptr") fault(NR, "a pointer that is no register")
    else if ((type == "i1") != (what ~ /^(true|false)$/)) fault(NR, "a constant of another type")
    else return 1
    return 0
}

function instruction(    line, w, n, parts) {
    line = $0; gsub(/[][,]/, " ", line)
    n = split(line, w, " ")
    if (op == "alloca") an_alloca(w[1], w[4], w[n], w[5] == "x")
    else if (op == "load") {
        if (w[4] ~ /^pair_/) access_pair(w[4], w[6], w[8]); else access(w[4], w[6], w[8])
        new_register(w[1], w[4])
        if (w[4] == "ptr") points(w[1], DATA, 0)
        if (/ !range / && w[4] != "i8") fault(NR, "a range of another type than i8")
    } else if (op == "store") {
        if (!is_a(w[2], w[3])) return
        access(w[2], w[5], w[7])
        if (w[2] == "ptr" && is_whole(w[3])) lend(object_at[w[3]])
    } else if (op == "getelementptr") an_address(w[1], w[n - 2], w[n])
    else if (op == "icmp") {
        if (w[5] == "ptr") is_lent_by_c(w[6]); else { is_a(w[5], w[6]); is_a(w[5], w[7]) }
        new_register(w[1], "i1")
    } else if (op == "extractvalue") { split(w[4], parts, "_"); is_a(w[4], w[5]); new_register(w[1], parts[w[6] + 2]) }
    else if (op == "zext" || op == "trunc") { is_a(w[n - 3], w[n - 2]); new_register(w[1], w[n]) }
    else if (op in is_arithmetic) { is_a(w[n - 2], w[n - 1]); is_a(w[n - 2], w[n]); new_register(w[1], w[n - 2]) }
    else if (op == "br") { if (w[2] == "i1") is_a("i1", w[3]) }
    else if (op == "switch") { is_a(w[2], w[3]); in_switch = 1; switched = w[2] }
    else if (op == "ret") { if (w[2] != result[here]) fault(NR, "a result of another type"); else if (w[2] != "void") is_a(w[2], w[3]) }
}

# Whether a register is a pointer as the caller of an exported function lends it.
function is_lent_by_c(reg) {
    if (!is_a("ptr", reg)) return
    if (!is_exported[here] || reg !~ /^%a/) fault(NR, "a pointer compared that no caller lends")
}

# Objects start with 1. Of an alloca the size and the alignment are known, of a parameter neither.
function new_object() { return ++objects }

function points(reg, object, offset) { object_at[reg] = object; offset_at[reg] = offset }

function lend(object) { if (object != DATA) is_data[object] = 1 }

# Alignments above 8 are kept on no stack that only promises 8.
function is_aligned(align) {
    if (align == 1 || align == 2 || align == 4 || align == 8) return 1
    fault(NR, "an alignment above 8 or of no power of two")
    return 0
}

# An alloca in a block that runs twice would be another object each time, and of no known size together.
function an_alloca(reg, what, align, of_bytes) {
    if (block != "start:") fault(NR, "an alloca outside of the first block")
    new_register(reg, "ptr")
    points(reg, new_object(), 0)
    allocas++
    size[objects] = of_bytes ? what + 0 : width[what]
    if (is_aligned(align)) grants[objects] = align
    # Bytes are told one by one below, so there may not be too many.
    if (size[objects] > 65536) fault(NR, "an alloca above 65,536 bytes")
    if (what == "ptr") is_slim[objects] = 1
}

# An 'alloca ptr' has 4 bytes with 32-bit pointers. So it only ever holds a pointer; nothing copies it, hands it on or points into it.
function is_whole(reg) {
    if (!(object_at[reg] in is_slim)) return 1
    fault(NR, "an alloca ptr, with 4 bytes on the other machine, used as more than a pointer's place")
    return 0
}

# A load or store of this type through the register.
function access(type, reg, align) {
    if (!is_a("ptr", reg) || !is_aligned(align) || (type != "ptr" && !is_whole(reg))) return
    if (type == "ptr" && ((align != 8 && align != 1) || offset_at[reg] % 8)) fault(NR, "a pointer at a place that is not aligned to 8")
    touches(object_at[reg], offset_at[reg], width[type], align)
    kind(type == "ptr" ? "ptr" : "int", object_at[reg], offset_at[reg], width[type])
}

# The same of two integers. The second stands behind the first, where its width divides the offset.
function access_pair(type, reg, align,    parts, second) {
    if (!is_a("ptr", reg) || !is_aligned(align) || !is_whole(reg)) return
    split(type, parts, "_")
    second = width[parts[2]]
    while (second % width[parts[3]]) second++
    touches(object_at[reg], offset_at[reg], width[parts[2]], align)
    touches(object_at[reg], offset_at[reg] + second, width[parts[3]], 1)
    kind("int", object_at[reg], offset_at[reg], width[parts[2]])
    kind("int", object_at[reg], offset_at[reg] + second, width[parts[3]])
}

function kind(what, object, offset, bytes) {
    kinds++
    kind_of[kinds] = what; kind_in[kinds] = object; kind_at[kinds] = offset; kind_bytes[kinds] = bytes; kind_line[kinds] = NR
}

# Bytes of an object are used: they are within an alloca, and how far a parameter is looked into is kept.
function touches(object, offset, bytes, align) {
    if (object == DATA) return
    if (offset % align || (object in size && align > grants[object])) fault(NR, "an access with more alignment than its alloca grants")
    if (object in size && offset + bytes > size[object]) fault(NR, "an access beyond its alloca")
    if (offset + bytes > reach[object]) reach[object] = offset + bytes
    if (align > needs[object]) needs[object] = align
}

function an_address(reg, from, by) {
    if (!is_a("ptr", from) || !is_whole(from)) return
    new_register(reg, "ptr")
    if (by ~ /^-/) fault(NR, "a negative index")
    else if (by ~ /^%/) {
        is_a("i64", by)
        if (/ inbounds /) by_variable_inbounds++
        by_variable++
        lend(object_at[from])
        points(reg, DATA, 0)
        return
    }
    # Far below 2^31, so it fits the index of either machine.
    if (length(by) > 5) fault(NR, "an index above 99,999")
    by_constant++
    if (by + 0 > largest_constant) largest_constant = by + 0
    if (object_at[from] == DATA) points(reg, DATA, 0); else points(reg, object_at[from], offset_at[from] + by)
}

function a_call(    callee, list, n, i, type, what, gives, given) {
    match($0, name); callee = substr($0, RSTART, RLENGTH)
    n = in_parentheses($0, list)
    if (callee ~ /^@"?llvm[.]/) { intrinsic(callee, list); return }
    gives = $2 == "=" ? $4 : "void"
    calls++
    for (i = 1; i <= n; i++) {
        if (list[i] !~ "^(ptr|" integer ") " value "$") { fault(NR, "another form of argument"); return }
        type = substr(list[i], 1, index(list[i], " ") - 1)
        what = substr(list[i], index(list[i], " ") + 1)
        given = given " " type
        if (is_a(type, what) && type == "ptr" && is_whole(what)) {
            hands++
            hand_to[hands] = callee; hand_as[hands] = i; hand_line[hands] = NR
            hand_object[hands] = object_at[what]; hand_offset[hands] = offset_at[what]
        }
    }
    call_line[calls] = NR; call_to[calls] = callee; call_types[calls] = gives given
    if (gives != "void") new_register($1, gives)
}

function intrinsic(callee, list,    to, from, bytes) {
    if ($0 == "  call void @llvm.trap()") return
    if ($0 ~ "^  call void @llvm[.]memmove[.]p0[.]p0[.]i64[(]ptr " register ", ptr " register ", i64 [0-9]+, i1 false[)]$") {
        to = substr(list[1], 5); from = substr(list[2], 5); bytes = bytes_of(list[3])
        if (!is_a("ptr", to) || !is_a("ptr", from) || !is_whole(to) || !is_whole(from)) return
        touches(object_at[to], offset_at[to], bytes, 1)
        touches(object_at[from], offset_at[from], bytes, 1)
        copies++
        copy_to[copies] = object_at[to]; copy_to_at[copies] = offset_at[to]
        copy_from[copies] = object_at[from]; copy_from_at[copies] = offset_at[from]
        copy_bytes[copies] = bytes; copy_line[copies] = NR
        if (bytes > longest_copy) longest_copy = bytes
    } else if ($0 ~ "^  call void @llvm[.]memset[.]p0[.]i64[(]ptr " register ", i8 " value ", i64 [0-9]+, i1 false[)]$") {
        to = substr(list[1], 5); bytes = bytes_of(list[3])
        if (!is_a("ptr", to) || !is_a("i8", substr(list[2], 4)) || !is_whole(to)) return
        touches(object_at[to], offset_at[to], bytes, 1)
        if (list[2] != "i8 0") kind("int", object_at[to], offset_at[to], bytes)
        fills++
    } else fault(NR, "another form of " callee)
}

# The length of a copy or a fill, 'i64 N'.
function bytes_of(what) {
    what = substr(what, 5)
    if (length(what) > 5) fault(NR, "a length above 99,999")
    return what + 0
}

END {
    if (inside) fault(NR, "a function without its end")
    if (functions == 0) fault(NR, "a module without a function")
    if (exported == 0) fault(NR, "a module that exports no function")
    if (layouts != 1 || triples != 1) fault(NR, "another layout or machine than the kit's x86-64")
    for (i = 1; i <= attributed; i++) {
        line = has_attributes[i]
        if (!(number_of[line] in is_strange) && group[number_of[line]] != wanted_at[line]) fault(line, "the attributes of something else")
    }
    for (c = 1; c <= calls; c++) {
        callee = call_to[c]
        if (!(callee in defined)) fault(call_line[c], "a call of what is not defined here")
        else if (call_types[c] != result[callee] takes[callee]) fault(call_line[c], "a call with other types than its function's")
        else if (is_exported[callee]) fault(call_line[c], "a call of an exported function, whose lengths the build narrows")
    }
    if (!faults) { slots(); summary() }
    if (faults > 20) print "and " faults - 20 " more"
    if (faults) print faults (faults == 1 ? " fault" : " faults")
    exit faults > 0
}

# ---- part 2: the slots

function slots() {
    spread_data()
    spread_reach()
    if (faults) return
    lay_out()
    join_bytes()
    mark_bytes()
    look_at_copies()
}

# What is handed to a call is the parameter's object: where one is data the other is, whole.
function spread_data(    h, from, to, changed) {
    for (h = 1; h <= hands; h++) hand_parameter[h] = parameter[hand_to[h], hand_as[h]]
    do {
        changed = 0
        for (h = 1; h <= hands; h++) {
            from = hand_object[h]; to = hand_parameter[h]
            if ((from == DATA || from in is_data) && !(to in is_data)) { is_data[to] = 1; changed = 1 }
            if (from != DATA && to in is_data && !(from in is_data)) { is_data[from] = 1; changed = 1 }
        }
    } while (changed)
}

# How far each parameter is looked into, and aligned to what, through further calls too. Without a chain of calls that hands on ever
# later parts of an object it is settled after as many rounds as there are objects.
function spread_reach(    h, from, to, end, changed, rounds, late) {
    do {
        changed = 0
        for (h = 1; h <= hands; h++) {
            from = hand_object[h]; to = hand_parameter[h]; end = hand_offset[h] + reach[to]
            if (from == DATA) continue
            if (reach[to] > 0 && end > reach[from]) { reach[from] = end; changed = 1; if (!(from in size)) late = h }
            if (needs[to] > needs[from]) { needs[from] = needs[to]; changed = 1 }
        }
    } while (changed && ++rounds <= objects)
    if (changed) { fault(hand_line[late], "a call that hands on ever later parts of an object"); return }
    for (h = 1; h <= hands; h++) {
        from = hand_object[h]; to = hand_parameter[h]
        if (from == DATA) continue
        if (from in size && hand_offset[h] + reach[to] > size[from]) fault(hand_line[h], "a call that looks beyond the alloca")
        if (needs[to] > 1 && (hand_offset[h] % needs[to] || (from in size && grants[from] < needs[to])))
            fault(hand_line[h], "a call that wants more alignment than the alloca grants")
    }
}

# Byte 0 stands for all data, whatever its offset; every other object has its bytes in a row.
function lay_out(    o) {
    bytes = 1
    for (o = 1; o <= objects; o++) {
        first[o] = bytes
        bytes += o in size ? size[o] : reach[o]
    }
    for (o = 0; o < bytes; o++) up[o] = o
}

function byte(object, offset) { return object == DATA ? DATA : first[object] + offset }

# The byte that stands for the class of B.
function class(b) {
    while (up[b] != b) { up[b] = up[up[b]]; b = up[b] }
    return b
}

# The lower byte stands for both, so the class of data keeps DATA.
function join(one, two) {
    one = class(one); two = class(two)
    if (one < two) up[two] = one; else up[one] = two
}

function join_bytes(    o, b, c, h, k) {
    for (o in is_data) for (b = 0; b < (o in size ? size[o] : reach[o]); b++) join(DATA, byte(o, b))
    for (c = 1; c <= copies; c++) for (k = 0; k < copy_bytes[c]; k++)
        join(byte(copy_to[c], copy_to_at[c] + k), byte(copy_from[c], copy_from_at[c] + k))
    for (h = 1; h <= hands; h++) for (k = 0; k < reach[hand_parameter[h]]; k++)
        join(byte(hand_object[h], hand_offset[h] + k), byte(hand_parameter[h], k))
}

# Each access says of its bytes what they are. integer_line and pointer_line have the first line that said so of a class.
function mark_bytes(    i, k, b) {
    for (i = 1; i <= kinds; i++) for (k = 0; k < kind_bytes[i]; k++) {
        b = class(byte(kind_in[i], kind_at[i] + k))
        if (kind_of[i] == "int") {
            if (b in pointer_line) fault(kind_line[i], "an integer where line " pointer_line[b] " has a pointer")
            else if (!(b in integer_line)) integer_line[b] = kind_line[i]
        } else if (b == DATA) fault(kind_line[i], "a pointer in data that is lent")
        else if (b in integer_line) fault(kind_line[i], "a pointer where line " integer_line[b] " has an integer")
        else if (!(b in pointer_line)) { pointer_line[b] = kind_line[i]; place_in_pointer[b] = k }
        else if (place_in_pointer[b] != k) fault(kind_line[i], "another byte of a pointer than line " pointer_line[b] " has")
    }
}

# A copy starts and ends between pointers. So the place that a pointer is copied to gets all of it.
function look_at_copies(    c, start, end) {
    for (c = 1; c <= copies; c++) if (copy_bytes[c] > 0) {
        start = class(byte(copy_from[c], copy_from_at[c]))
        end = class(byte(copy_from[c], copy_from_at[c] + copy_bytes[c] - 1))
        if ((start in pointer_line && place_in_pointer[start] != 0) || (end in pointer_line && place_in_pointer[end] != 7))
            fault(copy_line[c], "a copy that cuts a pointer")
    }
}

function summary(    o, b, lent, slim, in_pointers, in_integers, only_copied, in_data) {
    for (o in is_data) if (o in size) lent++
    for (o in is_slim) slim++
    for (b = 0; b < bytes; b++) {
        if (class(b) == DATA) in_data++
        if (up[b] != b) continue
        if (b in pointer_line) in_pointers++; else if (b in integer_line) in_integers++; else only_copied++
    }
    if (faults) return
    print functions " functions, " exported " of them exported, " calls + 0 " calls"
    print by_constant + 0 " addresses by a constant, the largest " largest_constant + 0 "; " by_variable + 0 " by a variable, " \
        by_variable_inbounds + 0 " of them inbounds nuw"
    print copies + 0 " copies, the longest of " longest_copy + 0 " bytes, and " fills + 0 " fills, all of constant length"
    print allocas + 0 " allocas: " slim + 0 " of them only hold a pointer, " lent + 0 " are lent as data"
    print bytes - 1 " bytes of allocas and parameters, " in_data - 1 " of them in the class of data"
    print in_pointers + 0 " classes of bytes are in pointers, " in_integers + 0 " in integers, " only_copied + 0 " in neither, none in both"
}
