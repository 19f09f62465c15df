# Turns the lines of the benchmark, `WHAT WORKLOAD CONTENDER NUMBER`, and the facts
# about the run into the page of results.

$1 == "about" {
    order[++workloads] = $2
    about[$2] = $3
    for (i = 4; i <= NF; i++) about[$2] = about[$2] " " $i
}
$1 == "calls" { calls[$2] = $4 }
$1 == "rounds" { rounds[$2, $3] = $4 }
$1 == "outcome" { outcome[$2, $3] = $4 }
$1 == "time" || $1 == "count" { found[$1, $2, $3] = $4 }
$1 == "stack" && $4 > stack[$3] { stack[$3] = $4 }
$1 == "startup" { best[$2] = $4; middle[$2] = $5 }
$1 == "fact" {
    key = $2
    sub(/^fact [^ ]* /, "")
    fact[key] = $0
}

# 12345 as 12,345.
function grouped(number,   text, out) {
    text = sprintf("%d", number)
    while (length(text) > 3) {
        out = "," substr(text, length(text) - 2) out
        text = substr(text, 1, length(text) - 3)
    }
    return text out
}

# What a contender takes, as a ratio to the reference.
function ratio(what, workload, contender,   base) {
    base = found[what, workload, "reference"]
    # The libraries work out the price: where there is no ring there is none.
    if (contender != "proved" && outcome[workload, "wait"] == calls[workload]) return "–"
    if (!((what, workload, contender) in found) || base == 0) return "–"
    return sprintf("%.2f", found[what, workload, contender] / base)
}

# The power of n with which a pool table's time grows from 16 jobs on: the slope
# of the straight line through the logarithms.
function growth(contender,   n, x, y, count, sx, sy, sxx, sxy) {
    for (n = 16; n <= 64; n += 4) {
        x = log(n)
        y = log(found["time", "pools-" n, contender])
        count++
        sx += x; sy += y; sxx += x * x; sxy += x * y
    }
    return sprintf("%.1f", (count * sxy - sx * sy) / (count * sxx - sx * sx))
}

function name(workload) {
    if (workload ~ /^pools-/) return "pool tables, " substr(workload, 7) " jobs"
    return workload " (" about[workload] ")"
}

function instructions(workload) {
    if (!(("count", workload, "reference") in found)) return "–"
    return grouped(found["count", workload, "reference"])
}

END {
    given = "archive" in fact
    print "# Results"
    print ""
    print "Written by `run.sh`; how to read it is in `README.md`."
    print ""
    printf "- %s, %s", fact["date"], fact["machine"]
    if (fact["processor"] != "") printf ", %s", fact["processor"]
    printf "; load %s processors at the end.\n", fact["load"]
    if (fact["machine"] != "x86_64") print "- **Emulated**: all is built for x86-64 and run by an emulator on this machine. Ratios tell something, nanoseconds little."
    printf "- %s, `%s`, for x86-64; best of %s turns.", fact["compiler"], fact["level"], fact["turns"]
    if ("libraries" in fact) printf " Libraries: %s.", fact["libraries"]
    print ""
    if (!given) print "- **No archive was given**: a stub that calls the reference stands where the proved code belongs."
    printf "- Instructions are counted by %s.\n", fact["counter"] == "qemu" ? "a plug-in for user-mode qemu" : fact["counter"] == "valgrind" ? "valgrind's callgrind" : "nobody here"
    print "- All results were compared before anything was timed: none differs."
    print ""
    print "Columns 4 to 6 are times and columns 8 to 10 instructions, each as a ratio to the reference; below 1 is less than the reference."
    print ""
    print "| Workload | Rounds, mean (most) | Reference, ns a call | Proved, time | LEMON, time | Boost, time | Reference, instructions a call | Proved, instructions | LEMON, instructions | Boost, instructions |"
    print "|---|---|---|---|---|---|---|---|---|---|"
    for (i = 1; i <= workloads; i++) {
        w = order[i]
        printf "| %s | %s (%s) | %s | %s | %s | %s | %s | %s | %s | %s |\n", name(w), rounds[w, "mean"], rounds[w, "most"], grouped(found["time", w, "reference"]), ratio("time", w, "proved"), ratio("time", w, "lemon"), ratio("time", w, "boost"), instructions(w), ratio("count", w, "proved"), ratio("count", w, "lemon"), ratio("count", w, "boost")
    }
    print ""
    printf "- Growth: from 16 to 64 jobs the time of a pool table grows as n to the power %s (proved), %s (reference); see `pools.svg`.\n", growth("proved"), growth("reference")
    printf "- Stack of a call: %s bytes (proved), %s bytes (reference).\n", grouped(stack["proved"]), grouped(stack["reference"])
    if (given) {
        printf "- Archive: %s bytes", grouped(fact["archive"])
        if ("code" in fact) printf ", %s of them code", grouped(fact["code"])
        print "."
    }
    if ("program" in best) printf "- From start to end, best (middle) of 200 runs: the program %s (%s) µs, a trivial C program %s (%s) µs.\n", grouped(best["program"]), grouped(middle["program"]), grouped(best["trivial"]), grouped(middle["trivial"])
}
