# Writes the parallel composition of two systems that `autbis min` wrote: steps whose label matches PATTERN are made by
# both together, all others by one alone. It stands for a tool that composes, in examples.
# usage: awk -v shared=PATTERN -f examples/compose.awk FIRST.aut SECOND.aut
FNR == 1 { begin[++part] = substr($2, 2) + 0 }
FNR == 1 ? !/^des \([0-9]+, [0-9]+, [0-9]+\)$/ : !/^\([0-9]+, .+, [0-9]+\)$/ {
    print "compose.awk: " FILENAME ": line " FNR " is none of a system that autbis wrote" >"/dev/stderr"
    exit failed = 2
}
FNR > 1 {
    label = target = $0
    sub(/^[^,]*, /, "", label)
    sub(/, [^,]*$/, "", label)
    sub(/.*, /, "", target)
    k = steps[part, substr($0, 2) + 0]++
    labels[part, substr($0, 2) + 0, k] = label
    targets[part, substr($0, 2) + 0, k] = target + 0
}

# The number of the state that is made of these two.
function number(a, b) {
    if (!((a, b) in numbers)) { first[count] = a; second[count] = b; numbers[a, b] = count++ }
    return numbers[a, b]
}

function step(label, a, b) { lines[++written] = "(" s ", " label ", " number(a, b) ")" }

END {
    if (failed) exit failed
    if (part != 2 || shared == "") {
        print "usage: awk -v shared=PATTERN -f compose.awk FIRST.aut SECOND.aut" >"/dev/stderr"
        exit 3
    }
    count = written = 0
    number(begin[1], begin[2])
    for (s = 0; s < count; s++) {
        a = first[s]
        b = second[s]
        for (j = 0; j < steps[1, a]; j++) {
            label = labels[1, a, j]
            if (label !~ shared) step(label, targets[1, a, j], b)
            for (k = 0; label ~ shared && k < steps[2, b]; k++)
                if (labels[2, b, k] == label) step(label, targets[1, a, j], targets[2, b, k])
        }
        for (k = 0; k < steps[2, b]; k++)
            if (labels[2, b, k] !~ shared) step(labels[2, b, k], a, targets[2, b, k])
    }
    print "des (0, " written ", " count ")"
    for (k = 1; k <= written; k++) print lines[k]
}
