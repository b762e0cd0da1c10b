# Says in words what was refused, as shelfctl does (host/shelfctl/src/words.rs).
# It reads three files, told apart by `part`: the rows of a text (none for hex
# and raw input), the bytes of the stream, and what `shelve` printed.

function say(place, words) { print "run: " place ": " words }

# Where command n was written; the opening is 0.
function spot(n) { return rows ? "line " line[n] : "byte " start[n] }

function hex(at) { return sprintf("%02X", byte[at]) }

function half(at) { return byte[at] * 256 + byte[at + 1] }

function word(at) { return half(at) * 65536 + half(at + 2) }

# How large a master is, and where there is a trailer, what it takes up.
function units(size) { return size " units" (trailer ? ", " (size + trailer) " with its trailer" : "") }

# The same of one that is of a least size and a greatest.
function range(from, to) {
    return from " to " to " units" (trailer ? ", " (from + trailer) " to " (to + trailer) " with its trailer" : "")
}

# Where each command starts, which production it belongs to, and what it is called: a master by its size or its range, a
# withdrawal and a settling by the number that it names. Only the opening 11 (hex) has a trailer.
function walk(    at) {
    start[0] = current = 0
    at = 8
    if (byte[0] == 17) {
        trailer = half(at)
        at += 2
    }
    while (at < bytes) {
        start[++commands] = at
        production[commands] = current
        if (byte[at] == 2) {
            what[commands] = "the master of " units(word(at + 1))
            at += 5
        } else if (byte[at] == 4) {
            named[commands] = half(at + 1)
            what[commands] = "the withdrawal of " named[commands]
            at += 3
        } else if (byte[at] == 5) {
            current = byte[at + 1]
            at += 2
        } else if (byte[at] == 6) {
            least[commands] = word(at + 1)
            greatest[commands] = word(at + 5)
            what[commands] = "the master of " range(least[commands], greatest[commands])
            at += 9
        } else if (byte[at] == 7) {
            named[commands] = half(at + 1)
            what[commands] = "the settling of " named[commands] " at " word(at + 3) " units"
            at += 7
        } else
            at++
    }
}

function limits(n, name, number, least, most) {
    if (number < least || number > most)
        say(spot(n), "the " name " is " number "; it must be from " least " to " most)
}

# The number of the command at this offset.
function command_at(offset,    n) {
    for (n = 1; start[n] != offset; n++)
        ;
    return n
}

function too_many() { say(spot(4097), "this is command 4097; at most 4096 may follow the opening") }

function refuse_stream(number, offset) {
    if (number == 1)
        say("byte 0", "the stream " (bytes ? "starts with " hex(0) : "is empty") "; it must start with the opening, 01 or 11")
    else if (number == 2)
        say("byte " offset, "there is no command " hex(offset) ": only 01 to 07 and 11")
    else if (number == 3)
        say("byte " offset, "the stream ends before the operands of " hex(offset) " do")
    else if (number == 4)
        say("byte " offset, "a second opening; a stream has one")
    else if (number == 5) {
        limits(0, "capacity", word(1), 1, 16777216)
        limits(0, "stock", half(5), 1, 512)
        limits(0, "m", byte[7], 6, 9)
    } else if (number == 18)
        limits(command_at(offset), "production", byte[offset + 1], 0, 1)
    else
        too_many()
}

# A master of the other production is on the shelf, but can be neither taken out nor settled; one of this production has
# a range that the size is outside of, or none any more.
function reason(n, number,    master) {
    master = named[n]
    if (!(n in named) || !shelved[master])
        return why[number]
    if (production[master] != production[n])
        return "that master is production " production[master] "'s"
    return number == 21 ? why[number] ", " least[master] " to " greatest[master] : "the size of that master is settled"
}

function refuse_command(n, number) {
    if (++refused <= 20)
        say(spot(n), what[n] " (command " n ") was refused with " number ": " reason(n, number))
}

BEGIN {
    OFMT = CONVFMT = "%.0f"
    why[8] = "size 0"
    why[9] = "size and trailer above the capacity"
    why[10] = "a new cartridge is called for and the stock is spent"
    why[17] = "no master of that number is on the shelf"
    why[19] = "the least size is 0 or above the greatest"
    why[20] = "no master of that number waits to be settled"
    why[21] = "the size is outside the master's range"
}

part == "row" { line[rows++] = $1; next }

part == "byte" { for (i = 1; i <= NF; i++) byte[bytes++] = $i; next }

FNR == 1 { walk() }

$1 == "X" { refuse_stream($2, $3) }

# If so long a text has too many commands as well, its author counts those.
$1 == "L" {
    if (rows > 4097)
        too_many()
    say(rows ? spot(commands) : "byte 32768", "here the stream grows longer than 32768 bytes")
}

$1 == "P" { shelved[$2] = 1 }

$1 == "O" { delete shelved[named[$2]] }

$1 == "R" { refuse_command($2, $3) }

END {
    more = refused - 20
    if (more > 0)
        print "run: ... and " more " more refused command" (more > 1 ? "s" : "")
}
