# The words of ./bench --explain: one line for each event that ran.
#     awk -f tools/explain.awk of=bytes BYTES of=lines LINES
# BYTES is a bench file as 'od -An -v -tu1' prints it, LINES is what bench printed for it. Answers, states, counts, stalls,
# bytes and the number missing are bench's own. From the file come the event itself and, where a poll completes one, the
# wrapper. Nothing is worked out twice: the decoder below only names the fields of a block that bench showed, what was put in
# is the sum of counts that bench showed, and a refused file is only told why.

BEGIN {
    split("Done IoBufferOverflow InvalidMaxLun InvalidState FullPacketExpected BufferTooSmall WouldBlock EndpointError " \
        "PacketSizeRefused BufferTooLarge BrokenRecord PacketRefused StatusRefused EmptyBlock", answers, " ")
    # Document 01's names without the DataTransfer in front of most.
    split("CommandTransfer CommandTransferInvalid NoData StatusTransfer ToHost ToHostStatusAwait ToHostEnding FromHost " \
        "FromHostEnding", states, " ")
    split("passed,failed,phase error", statuses, ",")
    split("current,changeable,default,saved", controls, ",")
    split("creation,poll,status,write_data,try_write_data_all,read_data,reset,control request,command step", kinds, ",")
    stalls["S"] = "stalls both"
    stalls["U"] = "unstalls both"
    stalls["US"] = "unstalls both, then stalls both"
    opcode_names()
    # Of each kind the one length that it has; of the others the least.
    split("7 5 5 0 0 2 0 2 0", needs, " ")
    split("1 0 1 0 0 1 1 1 0", fixed, " ")
    size = lines = 0
    waiting = status_sent = ""
    state = unread = 0
    put_in = declared = 0
}

of == "bytes" { for (i = 1; i <= NF; i++) file[size++] = $i; next }
{ line[++lines] = $0 }

END {
    if (lines == 1 && line[1] == "14") {
        print "14 the file is refused: " breach()
        exit
    }
    at = 0
    for (i = 1; i <= lines; i++) {
        split(line[i], now, " ")
        kind = file[at]
        length_of = number(at + 1, 2)
        from = at + 3
        event[i] = event_words()
        answer[i] = answer_words()
        after[i] = kind == 0 && now[2] > 0 ? "no device" : now[3] " " states[now[3] + 1]
        came[i] = join(join(figures(), outcome()), now[7] in stalls ? stalls[now[7]] : "")
        state = now[3]
        unread = now[5]
        at = from + length_of
    }
    widths()
    for (i = 1; i <= lines; i++) {
        text = pad(" ", wide_index - length(i - 1)) (i - 1) "  " pad(event[i], wide_event) "  " pad(answer[i], wide_answer)
        text = text "  " pad(after[i], wide_after) "  " came[i]
        sub(/ +$/, "", text)
        print text
    }
}

# ---- text

function pad(text, width) {
    while (length(text) < width) text = text " "
    return width > 0 ? text : ""
}

# Columns as wide as this file needs, up to what leaves room for the rest in 120.
function widths() {
    wide_index = length(lines - 1)
    wide_event = widest(event, 26)
    wide_answer = widest(answer, 12)
    wide_after = widest(after, 19)
}

function widest(texts, most,    i, found) {
    for (i = 1; i <= lines; i++) if (length(texts[i]) > found) found = length(texts[i])
    return found < most ? found : most
}

function join(one, two) { return one == "" ? two : two == "" ? one : one "; " two }

function plural(n, word) { return n " " word (n == 1 ? "" : "s") }

# Some awks write large numbers with an exponent.
function whole(n) { return sprintf("%.0f", n) }

# ---- bytes: of the file by offset, of lines by their hex digits

function number(at, wide,    n) {
    for (n = 0; wide > 0; wide--) n = n * 256 + file[at + wide - 1]
    return n
}

function file_hex(at, n,    hex) {
    for (hex = ""; n > 0; n--) hex = hex sprintf("%02x", file[at++])
    return hex
}

function hex_byte(hex, at) {
    return (index("0123456789abcdef", substr(hex, 2 * at + 1, 1)) - 1) * 16 + \
        index("0123456789abcdef", substr(hex, 2 * at + 2, 1)) - 1
}

function little(hex, at, wide,    n) {
    for (n = 0; wide > 0; wide--) n = n * 256 + hex_byte(hex, at + wide - 1)
    return n
}

function big(hex, at, wide,    n) {
    for (n = 0; wide > 0; wide--) n = n * 256 + hex_byte(hex, at++)
    return n
}

# How many bytes, then at most 16 whole; of more the first 4 and the last 4.
function shown(hex,    n) {
    n = length(hex) / 2
    return n ": " (n <= 16 ? hex : substr(hex, 1, 8) ".." substr(hex, length(hex) - 7))
}

function file_shown(at, n) {
    return n (n == 0 ? "" : n <= 16 ? ": " file_hex(at, n) : ": " file_hex(at, 4) ".." file_hex(at + n - 4, 4))
}

# ---- the event, from the file

function event_words() {
    if (kind == 0) return "create P " number(from, 2) ", buffer " whole(number(from + 3, 4))
    if (kind == 1) return poll_words()
    if (kind == 2) return "firmware: " statuses[file[from] + 1] ", figure " whole(number(from + 1, 4))
    if (kind == 3) return "firmware: write_data " length_of
    if (kind == 4) return "firmware: try_write_data_all " length_of
    if (kind == 5) return "firmware: read_data, room " number(from, 2)
    if (kind == 6) return "bus reset"
    if (kind == 7) return "control " toupper(file_hex(from, 1) " " file_hex(from + 1, 1)) control_words()
    return "firmware: command step" (length_of == 0 ? "" : ", extended addressing " (file[from] == 1 ? "on" : "off"))
}

function poll_words(    out) {
    if (file[from + 1] == 0 || file[from + 2] == 0) {
        out = "host sends " offered(1)
        if (file[from + 2] != 1) out = out " + " offered(2)
    } else if (file[from + 1] == 1 && file[from + 2] == 1) {
        out = "host silent"
    } else {
        out = "OUT " offered(1) (file[from + 2] == 1 ? "" : " + " offered(2))
    }
    return out ", " (file[from] == 0 ? "would take" : file[from] == 1 ? "IN busy" : "IN error " file[from])
}

function offered(which) {
    if (file[from + which] == 0) return file[from + which + 2]
    return file[from + which] == 1 ? "nothing" : "error " file[from + which]
}

function control_words() {
    if (file[from] == 161 && file[from + 1] == 255) return " (reset)"
    if (file[from] == 161 && file[from + 1] == 254) return " (max LUN)"
    if (file[from] == 33 && file[from + 1] == 255) return " (BOT's reset)"
    return ""
}

# ---- what came of it, from bench's line

# Only with answer 1 is there a number missing.
function answer_words() {
    return now[2] " " answers[now[2] + 1] (now[9] == "0" ? "" : ", " plural(now[9], "byte") " short")
}

function figures() {
    if (now[4] == "0" && now[5] == "0") return ""
    if (now[5] == "0") return "left " now[4]
    if (now[4] == "0") return "unread " now[5]
    return "left " now[4] ", unread " now[5]
}

function outcome() {
    if (kind == 0) return "max LUN " file[from + 2] (now[2] == "0" ? "" : "; the run ends here")
    if (kind == 1) return poll_outcome()
    if (kind == 3 || kind == 4) return now[2] == "0" ? join(write_outcome(), passing()) : ""
    if (kind == 5) return now[2] != "0" ? "" : "read " (now[8] == "-" ? "nothing" : shown(now[8]))
    if (kind == 7) return now[8] == "-" ? "" : "answers " now[8]
    if (kind == 8) return now[2] != "0" ? "" : now[8] == "-" ? "no command is offered" : command_words(now[8])
    return ""
}

function write_outcome() { return "wrote " (now[6] == length_of ? "" : now[6] " of ") file_shown(from, length_of) }

# The call by which what was put in since the wrapper passes L, and each later one that puts in more.
function passing() {
    put_in += now[6]
    if (now[6] == "0" || declared == "?" || put_in <= declared) return ""
    return put_in " bytes put in, " put_in - declared " more than L"
}

# "LUN in two digits, then exactly block-length bytes". Extended addressing is on only where the step carries 1.
function command_words(hex,    lun, block) {
    lun = "LUN " hex_byte(hex, 0) ": "
    block = substr(hex, 3)
    if (!needs_extended(block) || length_of == 1 && file[from] == 1) return lun block_words(block, 1)
    return lun "unknown command " toupper(substr(block, 1, 2)) " (extended addressing is off): " block
}

function poll_outcome(    text) {
    text = wrapper_outcome()
    # A wrapper says by itself that a packet was taken.
    if (now[6] > (text == "" ? 0 : 1)) text = join("took " plural(now[6], "packet"), text)
    if (now[3] == "3") return join(text, status_outcome())
    return now[8] == "-" ? text : join(text, "sent " shown(now[8]))
}

# Where a poll starts in state 0, or in 3 with nothing unread, its first packet goes behind the bytes that wait for a whole
# wrapper. They are known as long as they all came that way; bytes that a reset leaves of a data phase are not ("?").
function wrapper_outcome(    wrapper) {
    if (!(state == 0 || state == 3 && unread == 0) || now[6] == "0") return ""
    if (unread == 0) waiting = ""
    if (waiting == "?") return now[3] == "0" ? "" : older_words()
    waiting = waiting file_hex(from + 5, file[from + 3])
    if (length(waiting) < 62) return ""
    wrapper = substr(waiting, 1, 62)
    waiting = now[3] == "1" ? substr(waiting, 63) : "?"
    begin(little(wrapper, 8, 4))
    return now[3] == "1" ? fault_words(wrapper) : wrapper_words(wrapper)
}

# A wrapper was parsed: it declares L, and nothing is put in yet.
function begin(l) {
    declared = l
    put_in = 0
}

# L is then what is left and what was sent of it at once. Where nothing is left, more than L may have been sent.
function older_words() {
    begin(now[4] == "0" ? "?" : now[4] + (now[8] == "-" ? 0 : length(now[8]) / 2))
    return "wrapper behind older bytes" (now[3] == "1" ? ", invalid" : "")
}

function wrapper_words(hex) {
    return "wrapper tag " whole(little(hex, 4, 4)) ", " \
        (declared == 0 ? "no data" : whole(declared) (hex_byte(hex, 12) >= 128 ? " to host" : " from host")) \
        ", LUN " hex_byte(hex, 13) % 16 ", " block_words(substr(hex, 31, 2 * hex_byte(hex, 14)), 0)
}

function fault_words(hex) {
    if (substr(hex, 1, 8) != "55534243") return "invalid wrapper: its signature is " substr(hex, 1, 8)
    return "invalid wrapper: its block length is " hex_byte(hex, 14)
}

# A poll that ends in state 3 sends nothing but the status, in as many packets as it takes.
function status_outcome(    part) {
    if (state != 3) status_sent = ""
    if (now[8] == "-") return ""
    status_sent = status_sent now[8]
    part = length(now[8]) < 26 ? "sent " shown(now[8]) ", " : "sent the "
    if (length(status_sent) < 26) return part "part of the status"
    return part "status: tag " whole(little(status_sent, 4, 4)) ", residue " whole(little(status_sent, 8, 4)) ", " \
        statuses[hex_byte(status_sent, 12) + 1]
}

# ---- a command block

function opcode_names() {
    called["00"] = "TEST UNIT READY";         shortest["00"] = 1
    called["03"] = "REQUEST SENSE";           shortest["03"] = 5
    called["12"] = "INQUIRY";                 shortest["12"] = 5
    called["1a"] = "MODE SENSE (6)";          shortest["1a"] = 5
    called["23"] = "READ FORMAT CAPACITIES";  shortest["23"] = 9
    called["25"] = "READ CAPACITY (10)";      shortest["25"] = 1
    called["28"] = "READ (10)";               shortest["28"] = 9
    called["2a"] = "WRITE (10)";              shortest["2a"] = 9
    called["5a"] = "MODE SENSE (10)";         shortest["5a"] = 9
    called["88"] = "READ (16)";               shortest["88"] = 14
    called["8a"] = "WRITE (16)";              shortest["8a"] = 14
    called["9e"] = "READ CAPACITY (16)";      shortest["9e"] = 14
}

# Whether it counts with extended addressing and not without.
function needs_extended(hex) { return hex ~ /^8[8a]/ && length(hex) / 2 >= shortest[substr(hex, 1, 2)] }

# Its name, and the fields where they are asked for.
function block_words(hex, fields,    opcode) {
    opcode = substr(hex, 1, 2)
    if (!(opcode in called)) return "unknown command " toupper(opcode) (fields ? ": " hex : "")
    if (length(hex) / 2 < shortest[opcode]) return "unknown command " toupper(opcode) " (too short)" (fields ? ": " hex : "")
    return called[opcode] (fields ? field_words(opcode, hex) : "")
}

function field_words(opcode, hex) {
    if (opcode == "03") return " DESC " hex_byte(hex, 1) % 2 ", allocation " hex_byte(hex, 4)
    if (opcode == "12") return " EVPD " hex_byte(hex, 1) % 2 ", page " hex_byte(hex, 2) ", allocation " big(hex, 3, 2)
    if (opcode == "1a") return mode_words(hex) hex_byte(hex, 4)
    if (opcode == "5a") return mode_words(hex) big(hex, 7, 2)
    if (opcode == "23") return " allocation " big(hex, 7, 2)
    if (opcode == "28" || opcode == "2a") return " address " whole(big(hex, 2, 4)) ", blocks " big(hex, 7, 2)
    if (opcode == "88" || opcode == "8a") return " address " exact(substr(hex, 5, 16)) ", blocks " whole(big(hex, 10, 4))
    if (opcode == "9e") return " allocation " whole(big(hex, 10, 4))
    return ""
}

# A number of 16 hex digits. From 2^53 on awk does not hold every one: these stay in hex.
function exact(hex) { return hex < "0020000000000000" ? whole(big(hex, 0, 8)) : "0x" hex }

function mode_words(hex,    page) {
    page = hex_byte(hex, 2)
    return " DBD " int(hex_byte(hex, 1) / 8) % 2 ", " controls[int(page / 64) + 1] ", page " page % 64 \
        ", subpage " hex_byte(hex, 3) ", allocation "
}

# ---- why a file is refused: the first rule that it breaks, from its front to its end

function breach(    end, at, count, last, why, declared) {
    if (size > 65536) return "it has more than 65,536 bytes"
    if (size < 12) return "it has " plural(size, "byte") ", and the trailer alone takes 12"
    end = size - 12
    if (file_hex(size - 4, 4) != "424f5431") return "at offset " size - 4 " there is no BOT1"
    for (at = 0; at < end; at += 3 + number(at + 1, 2)) {
        why = event_breach(at, end, count)
        if (why != "") return "at offset " at ", event " count + 0 ", " why
        last = at
        count++
    }
    declared = number(end, 4)
    if (declared != count + 0)
        return "at offset " end " the trailer counts " plural(whole(declared), "event") ", and there are " count + 0
    declared = number(end + 4, 4)
    if (declared != last + 0)
        return "at offset " end + 4 " the trailer has the last event at " whole(declared) ", and it is at " last + 0
    return "this explanation does not find the rule that it breaks"
}

function event_breach(at, end, count,    kind, n, need) {
    if (at + 3 > end) return "the trailer begins before kind and length are whole"
    kind = file[at]
    n = number(at + 1, 2)
    if (kind > 8) return "the kind is " kind ", and kinds are 0 to 8"
    if (count == 0 && kind != 0) return "there is a " kinds[kind + 1] ", and the first event is to be the creation"
    if (count > 0 && kind == 0) return "there is a second creation"
    need = needs[kind + 1]
    if (fixed[kind + 1] && n != need) return "a " kinds[kind + 1] " has " plural(need, "byte") ", and this one has " n
    if (n < need) return "a " kinds[kind + 1] " has at least " plural(need, "byte") ", and this one has " n
    if (kind == 8 && n > 1) return "a command step has at most 1 byte, and this one has " n
    if (at + 3 + n > end) return "the length is " n ", and the trailer begins after " plural(end - at - 3, "byte")
    if (kind == 1) return poll_breach(at + 3, n)
    if (kind == 2 && file[at + 3] > 2) return "the status byte is " file[at + 3] ", and it is to be 0, 1 or 2"
    if (kind == 8 && n == 1 && file[at + 3] > 1) return "the command step carries " file[at + 3] ", and it is to be 0 or 1"
    return ""
}

function poll_breach(at, n,    which) {
    for (which = 1; which <= 2; which++)
        if (file[at + which] != 0 && file[at + which + 2] != 0)
            return (which == 1 ? "the first" : "the second") " packet has a length, and its OUT answer is not 0"
    if (n != 5 + file[at + 3] + file[at + 4])
        return "the packets have " plural(file[at + 3] + file[at + 4], "byte") " by their lengths, and there are " n - 5
    return ""
}
