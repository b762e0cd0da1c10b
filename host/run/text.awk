# Makes rows of a text of commands, without comments: the line of each command
# and its bytes in hex. What is wrong with the text is said, with status 2.
# `unreadable` is the first line that is no text, or 0.

function bad(message) {
    print "run: line " NR ": " message >"/dev/stderr"
    failed = 1
    exit 2
}

function bad_form(form) { bad("the command is `" form "`") }

# The command must have so many operands, of these names.
function operands(count, names) {
    if (NF - 1 != count)
        bad_form($1 (count > 0 ? " " : "") names)
}

# A number that fits the operand's width. The library knows the limits.
function number(name, word, largest, limits) {
    if (word !~ /^[0-9]+$/)
        bad("the " name " `" word "` is not a whole number")
    if (word + 0 > largest)
        bad("the " name " " word " is too large to be written" limits)
    return word + 0
}

function must_be_open() {
    if (!opened)
        bad("the first command must be `" open_form "`")
}

BEGIN { open_form = "open capacity stock m [trailer]" }

NR == unreadable { bad("not a readable text") }

NF == 0 { next }

$1 == "open" {
    if (NF != 4 && NF != 5)
        bad_form(open_form)
    capacity = number("capacity", $2, 4294967295, "; it must be from 1 to 16777216")
    stock = number("stock", $3, 65535, "; it must be from 1 to 512")
    m = number("m", $4, 255, "; it must be from 6 to 9")
    byte = "01"
    trailer = ""
    if (NF == 5) {
        byte = "11"
        trailer = sprintf("%04X", number("trailer", $5, 65535, "; it must be from 0 to 65535"))
    }
    if (opened)
        bad("the shelf is already open")
    opened = 1
    printf "%d %s%08X%04X%02X%s\n", NR, byte, capacity, stock, m, trailer
    next
}

$1 == "shelve" {
    operands(1, "size")
    size = number("size", $2, 4294967295, "")
    must_be_open()
    printf "%d 02%08X\n", NR, size
    next
}

$1 == "count" {
    operands(0, "")
    must_be_open()
    print NR " 03"
    next
}

$1 == "withdraw" {
    operands(1, "number")
    named = number("number", $2, 65535, "; it must be from 1 to 4096")
    must_be_open()
    printf "%d 04%04X\n", NR, named
    next
}

$1 == "production" {
    operands(1, "number")
    production = number("production", $2, 255, "; it must be from 0 to 1")
    must_be_open()
    printf "%d 05%02X\n", NR, production
    next
}

$1 == "reserve" {
    operands(2, "least greatest")
    least = number("least", $2, 4294967295, "")
    greatest = number("greatest", $3, 4294967295, "")
    must_be_open()
    printf "%d 06%08X%08X\n", NR, least, greatest
    next
}

$1 == "settle" {
    operands(2, "number size")
    named = number("number", $2, 65535, "; it must be from 1 to 4096")
    size = number("size", $3, 4294967295, "")
    must_be_open()
    printf "%d 07%04X%08X\n", NR, named, size
    next
}

{ bad("`" $1 "` is no command: open, shelve, count, withdraw, production, reserve or settle") }

END {
    if (failed)
        exit 2
    if (!opened) {
        NR = 1
        bad("there is no command; the first is `" open_form "`")
    }
}
