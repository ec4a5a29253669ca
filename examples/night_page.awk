# The page of a night: what the figures say, the head of the page, and the words that all parts share.
# Times are in blocks of 4 ms; the width of a map is the night.

function esc(s) {
    gsub(/&/, "\\&amp;", s)
    gsub(/</, "\\&lt;", s)
    gsub(/>/, "\\&gt;", s)
    gsub(/"/, "\\&quot;", s)
    return s
}

# Thousands apart.
function big(n, s) {
    s = sprintf("%d", n)
    while (match(s, /[0-9][0-9][0-9][0-9]/) && match(s, /^-?[0-9]+[0-9][0-9][0-9](,|$)/)) {
        match(s, /^-?[0-9]+/)
        s = substr(s, 1, RLENGTH - 3) "," substr(s, RLENGTH - 2)
    }
    return s
}

# A time in the units that the length of the night calls for.
function at(block, ms, s) {
    ms = block * 4
    if (blocks < 30000) return sprintf(ms % 1000 == 0 ? "%.0f s" : ms % 100 == 0 ? "%.1f s" : "%.3f s", ms / 1000)
    s = int(ms / 1000)
    if (blocks < 1800000) return sprintf("%d:%02d", int(s / 60), s % 60)
    return sprintf("%d:%02d:%02d", int(s / 3600), int(s / 60) % 60, s % 60)
}

function x_of(block) { return left + (right - left) * block / blocks }
function whose(t) { return t == 0 ? "house" : t " " name[t] }

# dBFS of a magnitude of 24 bits.
function db(m) { return 20 * log(m / 8388608) / log(10) }
function dbfs(m) { return m == 0 ? "none" : sprintf("%.1f", db(m)) }

# A step that gives about n ticks of the night, in blocks.
function tick_step(n, steps, k, c) {
    c = split("25 50 125 250 500 1250 2500 3750 7500 15000 37500 75000 150000 300000 450000 900000", steps, " ")
    for (k = 1; k < c; k++) if (blocks / steps[k] <= n) break
    return steps[k]
}

function axis(top, bottom, b, step) {
    step = tick_step(12)
    for (b = 0; b <= blocks; b += step) {
        printf "<path class=\"grid\" d=\"M%.1f %dV%d\"/>", x_of(b), top, bottom
        printf "<text class=\"small mid\" x=\"%.1f\" y=\"%d\">%s</text>\n", x_of(b), top - 6, at(b)
    }
}

# The fill of a tenant: a pattern on its colour.
function fill(t) { return "fill=\"url(#p" t ")\"" }

BEGIN { left = 58; right = 1060 }

$1 == "title" { title = substr($0, 7) }
$1 == "blocks" { blocks = $2 }
$1 == "minute" { minute = $2 }
$1 == "tenant" { name[$2] = substr($0, length($1) + length($2) + 3); tenants++ }
$1 == "leases" {
    for (k = 0; k < 64; k++) {
        t = $(k + 3)
        if (t != holder[k] + 0) {
            if (holder[k] != 0) segment($2, k)
            holder[k] = t
            since[k] = $2
        }
        if (t != 0 && k > top_slot) top_slot = k
    }
}
$1 == "move" { moves++; move_at[moves] = $2; move_old[moves] = $3; move_new[moves] = $4; move_of[moves] = $5
               leaves[$2, $3] = 1; arrives[$2, $4] = 1 }
$1 == "event" {
    events++
    event_at[events] = $2
    event_of[events] = $3
    event_text[events] = substr($0, length($1) + length($2) + length($3) + 4)
}
$1 == "row" { rows++; for (k = 2; k <= 8; k++) row[rows, k] = $k }
$1 == "refused" {
    refusals++
    for (k = 2; k <= 6; k++) refusal[refusals, k] = $k
    refusal_text[refusals] = $7
    for (k = 8; k <= NF; k++) refusal_text[refusals] = refusal_text[refusals] " " $k
}
$1 == "lost" { losses++; for (k = 2; k <= 8; k++) loss[losses, k] = $k }
$1 == "patched" { patched++; for (k = 2; k <= 4; k++) patch_of[patched, k] = $k }
$1 == "sheet" { if ($2 + 1 > minutes) minutes = $2 + 1; for (k = 0; k < 20; k++) sheet[$2, $3, k] = $(k + 4) }
$1 == "night" { for (k = 0; k < 20; k++) night[$2, k] = $(k + 3) }
$1 == "aes3" { aes3_lost[$2, $3] = $4 }
$1 == "madi" { for (k = 3; k <= 5; k++) madi[$2, k] = $k }
$1 == "hd" { for (k = 4; k <= 7; k++) hd[$2, $3, k] = $k }
$1 == "differs" { differing++; if (differing <= 20) differs_text[differing] = at($2) ": " whose($3) ": " substr($0,
    length($1 $2 $3 $4) + 5) " at " $4 }
$1 == "found" { finding = at($2) ": material of tenant " $3 " in " substr($0,
    length($1 $2 $3 $4 $5) + 6) ", element " $5 }
$1 == "lost-frames" { lost_frames = $2 }
$1 == "mended" { mended = $2 }
$1 == "commands" { commands = $2 }
$1 == "verdict" { verdict = $2 }

# A slot stops being its holder's.
function segment(block, k) {
    if (block > since[k]) {
        segments++
        seg_slot[segments] = k
        seg_of[segments] = holder[k]
        seg_from[segments] = since[k]
        seg_to[segments] = block
    }
}

function patterns(t) {
    print "<svg width=\"0\" height=\"0\" style=\"position:absolute\" aria-hidden=\"true\"><defs>"
    for (t = 1; t <= 4; t++) {
        printf "<pattern id=\"p%d\" class=\"c%d\" width=\"10\" height=\"10\" patternUnits=\"userSpaceOnUse\">", t, t
        print "<rect width=\"10\" height=\"10\" fill=\"currentColor\"/>"
        if (t == 2) print "<path class=\"pen\" d=\"M-1 11L11 -1M-1 1L1 -1M9 11L11 9\"/>"
        if (t == 3) print "<circle class=\"pen\" cx=\"5\" cy=\"5\" r=\"1.6\"/>"
        if (t == 4) print "<path class=\"pen\" d=\"M2.5 0V10M7.5 0V10\"/>"
        print "</pattern>"
    }
    print "<pattern id=\"pf\" width=\"9\" height=\"9\" patternUnits=\"userSpaceOnUse\">"
    print "<path class=\"ink\" d=\"M-1 10L10 -1M-1 1L1 -1M8 10L10 8\"/></pattern>"
    print "</defs></svg>"
}

function key(t) {
    print "<ul class=\"key\">"
    for (t = 1; t <= 4; t++)
        if (t in name)
            printf "<li><svg viewBox=\"0 0 34 16\"><rect %s class=\"bar c%d\" x=\"0.5\" y=\"0.5\" width=\"33\" " \
                "height=\"15\"/></svg>%d %s</li>\n", \
                fill(t), t, t, esc(name[t])
    printf "<li><svg viewBox=\"0 0 34 16\"><rect class=\"row\" width=\"34\" height=\"16\"/></svg>%s</li></ul>\n",
        (only ? "not this tenant's" : "free: the house")
}

function tile(n, words) { printf "<li><b>%s</b><span>%s</span></li>\n", n, words }

function head(k) {
    printf "<title>%s</title>\n</head>\n<body>\n", esc(title)
    patterns()
    printf "<h1>%s</h1>\n<p class=\"sub\">%s of sound, %s, %s blocks of 4 ms each; a row of figures is %s.</p>\n",
        esc(title), at(blocks), (only ? "tenant " esc(whose(only)) : tenants " tenants"), big(blocks), at(minute)
    if (verdict == "as-sent")
        printf "<p class=\"verdict\"><b>&#10003; As sent.</b> %s sound came out exactly as it went in, but for %s " \
            "frames lost to damage, which are listed below. After every block the shared memory and all outputs were " \
            "searched: no tenant's material was found where it must not be.</p>\n",
            (only ? "The tenant's" : "Each tenant's"), big(lost_frames)
    else if (verdict == "found")
        printf "<p class=\"verdict bad\"><b>&#10007; Found.</b> %s. The night ended there.</p>\n",
            (finding == "" ? "A tenant's material was where it must not be" : esc(finding))
    else {
        printf "<p class=\"verdict bad\"><b>&#10007; Not as sent,</b> %s times:", big(differing)
        for (k = 1; k <= differing && k <= 20; k++) printf " %s;", esc(differs_text[k])
        print "</p>"
    }
    print "<ul class=\"tiles\">"
    if (!only) tile(tenants, "tenants")
    tile(moves + 0, "slots moved as gaps closed")
    tile(big(mended), "lanes mended")
    tile(big(lost_frames), "frames lost to damage")
    tile(refusals + 0, "refusals reported")
    tile(commands + 0, "preamp commands that arrived")
    print "</ul>"
}

END {
    for (k = 0; k < 64; k++) if (holder[k] != 0) segment(blocks, k)
    head()
    lease_map()
    patch_map()
    levels()
    faults()
    listing()
    replay_lines()
    print "<footer>Made from the figures of hub and the lines of packet_replay. A block is 192 frames of 48 kHz, 4 " \
        "ms.</footer>"
    print "</body>\n</html>"
}
