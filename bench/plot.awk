# Draws the time of a call on pool tables against the number of jobs, as SVG: the
# proved code, the reference, and the two libraries where they were measured.

$1 == "time" && $2 ~ /^pools-/ {
    n = substr($2, 7) + 0
    micros[$3, n] = $4 / 1000
    if ($4 / 1000 > top) top = $4 / 1000
}
$1 == "fact" && $2 == "archive" { given = 1 }
$1 == "fact" && $2 == "machine" { machine = $3 }

function across(n) { return left + n * wide / 64 }
function up(t) { return bottom - t * tall / limit }

# One of 1, 2 or 5 times a power of ten, so that five steps or fewer reach `most`.
function step_for(most,   step) {
    step = 0.001
    while (1) {
        if (step * 5 >= most) return step
        if (step * 10 >= most) return step * 2
        if (step * 25 >= most) return step * 5
        step *= 10
    }
}

function curve(contender, colour, dash,   n, points) {
    for (n = 4; n <= 64; n += 4) points = points sprintf("%.1f,%.1f ", across(n), up(micros[contender, n]))
    printf "<polyline points=\"%s\" fill=\"none\" stroke=\"%s\" stroke-width=\"2\"%s/>\n", points, colour, dash
    for (n = 4; n <= 64; n += 4) printf "<circle cx=\"%.1f\" cy=\"%.1f\" r=\"3\" fill=\"%s\"/>\n", across(n), up(micros[contender, n]), colour
}

function key(label, colour, dash) {
    printf "<line x1=\"%d\" y1=\"%d\" x2=\"%d\" y2=\"%d\" stroke=\"%s\" stroke-width=\"2\"%s/>\n", left + 20, 68 + 22 * keys, left + 52, 68 + 22 * keys, colour, dash
    printf "<text x=\"%d\" y=\"%d\" stroke=\"#fff\" stroke-width=\"5\" paint-order=\"stroke\">%s</text>\n", left + 60, 73 + 22 * keys, label
    keys++
}

# A contender's curve and its key, where it was measured.
function draw(contender, label, colour, dash) {
    if (!((contender, 64) in micros)) return
    curve(contender, colour, dash)
    key(label, colour, dash)
}

END {
    left = 70; bottom = 370; wide = 600; tall = 320
    step = step_for(top)
    limit = step
    while (limit < top) limit += step
    # xmlns names the format; a viewer takes the file for a picture by that name, and fetches nothing.
    print "<svg xmlns=\"http://www.w3.org/2000/svg\" viewBox=\"0 0 720 430\" font-family=\"sans-serif\" font-size=\"14\" fill=\"#222\">"
    print "<rect width=\"720\" height=\"430\" fill=\"#fff\"/>"
    printf "<text x=\"%d\" y=\"24\" font-size=\"16\">Time of a verdict call on pool tables%s</text>\n", left, machine == "x86_64" ? "" : " (emulated)"
    for (t = 0; t <= limit + step / 2; t += step) {
        printf "<line x1=\"%d\" y1=\"%.1f\" x2=\"%d\" y2=\"%.1f\" stroke=\"#ddd\"/>\n", left, up(t), left + wide, up(t)
        printf "<text x=\"%d\" y=\"%.1f\" text-anchor=\"end\">%g</text>\n", left - 8, up(t) + 5, t
    }
    for (n = 0; n <= 64; n += 8) printf "<text x=\"%.1f\" y=\"%d\" text-anchor=\"middle\">%d</text>\n", across(n), bottom + 22, n
    printf "<text x=\"%d\" y=\"%d\" text-anchor=\"middle\">jobs</text>\n", left + wide / 2, bottom + 46
    printf "<text x=\"18\" y=\"%d\" text-anchor=\"middle\" transform=\"rotate(-90 18 %d)\">microseconds a call</text>\n", bottom - tall / 2, bottom - tall / 2
    draw("boost", "Boost, the price only", "#8040a0", " stroke-dasharray=\"10 3 2 3\"")
    draw("lemon", "LEMON, the price only", "#2a8a3a", " stroke-dasharray=\"2 3\"")
    draw("reference", "reference in C", "#c05000", "")
    draw("proved", given ? "proved" : "proved (stub: calls the reference)", "#0060a0", " stroke-dasharray=\"6 4\"")
    print "</svg>"
}
