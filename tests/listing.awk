# The listing of a capture from the rules of document 01 alone, as an independent check of the program.
# Input: the capture as `od -An -v -tu1` prints it, one decimal number for each byte. Output: what "list" must write.

function pair(at) {
    return byte[at] + 256 * byte[at + 1]
}

# The control byte's name; its counts go to ns and nr, "-" where there is none.
function name_of(control,    low) {
    ns = "-"
    nr = "-"
    if (control == 147) return "SNRM"
    if (control == 83) return "DISC"
    if (control == 115) return "UA"
    if (control == 151) return "FRMR"
    low = control % 32
    if (low % 2 == 0 && low >= 16) {
        ns = (low - 16) / 2
        nr = int(control / 32)
        return "I"
    }
    if (low == 17 || low == 21) {
        nr = int(control / 32)
        return low == 17 ? "RR" : "RNR"
    }
    return ""
}

# The refusal of the record at a place, or 0; what it holds is left in size, kind, node, name, ns, nr and info.
function refusal(at, left) {
    if (left < 4) return 18
    size = pair(at)
    kind = pair(at + 2)
    if (size < 4 || size > left) return 18
    if (kind == 3) return size == 4 ? 0 : 18
    if (kind != 1 && kind != 2) return 18
    if (size < 6 || size > 259) return 18
    node = byte[at + 4]
    info = size - 6
    if (node < 1 || node > 250) return 8
    name = name_of(byte[at + 5])
    if (name == "") return 9
    if (name != "I") return info == 0 ? 0 : 10
    if (info < 5 || info > 253) return 10
    if (byte[at + 6] != info + 2) return 12
    return 0
}

{
    for (i = 1; i <= NF; i++) byte[count++] = $i + 0
}

END {
    if (count > 65536) {
        print "too long"
        exit
    }
    print "no way node kind ns nr info"
    number = 1
    for (at = 0; at < count; at += size) {
        wrong = refusal(at, count - at)
        if (wrong) {
            print number, "refused", wrong
            exit
        }
        if (kind == 3) print number, ".", "-", "-", "-", "-", "-"
        else print number, (kind == 1 ? ">" : "<"), node, name, ns, nr, info
        number++
    }
}
