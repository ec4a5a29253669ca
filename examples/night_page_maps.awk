# The page of a night: the lease map over time, with what happened below it, and the patch.

function y_of(slot) { return map_top + slot * map_row }

# A bar of one slot. Where its tenant moved, it leaves room for the line that shows the move.
function lease_bar(k, x, w, s, t, y, under) {
    s = seg_slot[k]; t = seg_of[k]; y = y_of(s)
    x = x_of(seg_from[k]) + ((seg_from[k], s) in arrives ? 7 : 0)
    w = x_of(seg_to[k]) - ((seg_to[k], s) in leaves ? 7 : 0) - x
    if (w < 1) w = 1
    printf "<rect %s class=\"bar c%d\" x=\"%.1f\" y=\"%.1f\" width=\"%.1f\" height=\"%.1f\"><title>slot %d: %s, %s " \
        "to %s</title></rect>\n", \
        fill(t), t, x, y + 1.5, w, map_row - 3, s, esc(whose(t)), at(seg_from[k]), at(seg_to[k])
    under = (s > 0 && began[s - 1, seg_from[k]] == t)
    began[s, seg_from[k]] = t
    if (w > 9 * length(name[t]) + 30 && !under) label(x + 4, y, w, t, t " " esc(name[t]), 8.2 * length(name[t]) + 20)
    else if (w > 16) label(x + 4, y, w, t, t, 11)
}

# A label on a plate of the tenant's plain colour, so that the pattern does not cross the letters.
function label(x, y, w, t, words, wide) {
    printf "<rect class=\"c%d\" fill=\"currentColor\" x=\"%.1f\" y=\"%.1f\" width=\"%.1f\" height=\"%.1f\"/>", t,
        x - 1, y + 3, wide, map_row - 6
    printf "<text class=\"on%d name\" x=\"%.1f\" y=\"%.1f\">%s</text>\n", t, x + 1, y + map_row / 2 + 4, words
}

# A mark of an event on its line; marks that would meet are set one above the other.
function mark(block, y, letters, words, x, level) {
    x = x_of(block)
    for (level = 0; level < 3; level++)
        if (!((y, level) in last_x) || x - last_x[y, level] >= 7 * length(letters) + 5) break
    if (level == 3) level = 2
    last_x[y, level] = x
    printf "<g><path class=\"tick\" d=\"M%.1f %.1fV%.1f\"/><text class=\"mid small\" x=\"%.1f\" " \
        "y=\"%.1f\">%s</text><title>%s</title></g>\n", \
        x, y + 26, y + 34, x, y + 24 - 11 * level, letters, words
}

# Two letters for a desk event and for damage, with the tenant where there is one.
function letters_of(k, words, s) {
    words = event_text[k]
    s = words ~ /^ask/ ? "+" : words ~ /^return/ ? "−" : words ~ /^close/ ? "close" : words ~ /^patch/ ? "P" : "pre"
    if (words ~ /^damage/) {
        s = words ~ /aes3/ ? "A" : words ~ /madi/ ? "M" : words ~ /patch/ ? "W" : words ~ /control/ ? "C" : "H"
    }
    return s (event_of[k] == 0 ? "" : event_of[k])
}

function event_lines(y, k, words, t, from) {
    printf "<text class=\"end\" x=\"%d\" y=\"%d\">desk</text>\n", left - 8, y + 32
    printf "<text class=\"end\" x=\"%d\" y=\"%d\">damage</text>\n", left - 8, y + 82
    printf "<text class=\"end\" x=\"%d\" y=\"%d\">talk</text>\n", left - 8, y + 118
    printf "<path class=\"grid\" d=\"M%d %dH%dM%d %dH%d\"/>\n", left, y + 34, right, left, y + 84, right
    for (k = 1; k <= events; k++) {
        words = event_text[k]
        if (words !~ /^talkback/) {
            mark(event_at[k], words ~ /^damage/ ? y + 50 : y, letters_of(k),
                at(event_at[k]) " " esc(whose(event_of[k])) ": " esc(words))
            continue
        }
        t = event_of[k]
        if (words ~ / on$/) talk_from[t] = event_at[k]
        else talk_bar(t, talk_from[t], event_at[k], y)
        if (words ~ / off$/) delete talk_from[t]
    }
    for (t in talk_from) talk_bar(t, talk_from[t], blocks, y)
}

function talk_bar(t, from, to, y, w) {
    w = x_of(to) - x_of(from)
    if (w < 2) w = 2
    printf "<rect %s class=\"bar c%d\" x=\"%.1f\" y=\"%.1f\" width=\"%.1f\" height=\"8\"><title>talkback to %s, %s " \
        "to %s</title></rect>\n", \
        fill(t), t, x_of(from), y + 88 + 10 * t, w, esc(whose(t)), at(from), at(to)
    printf "<text class=\"small end\" x=\"%.1f\" y=\"%.1f\">%s</text>\n", x_of(from) - 4, y + 96 + 10 * t, esc(whose(t))
}

function lease_map(k, m, y, high, shown) {
    map_top = 26
    shown = top_slot + 2
    if (shown > 64) shown = 64
    map_row = shown > 32 ? 13 : 19
    high = map_top + shown * map_row
    print "<section id=\"leases\"><h2>Lease map</h2>"
    print "<p>Slots of the MADI frame from top to bottom, the night from left to right. A line from one bar to " \
        "another is a move, where the house closed the gaps.</p>"
    key()
    printf "<svg viewBox=\"0 0 1080 %d\" role=\"img\" aria-label=\"Lease map: slot by time\">\n", high + 156
    for (k = 0; k < shown; k++) {
        if (k % 2 == 0) printf "<rect class=\"row\" x=\"%d\" y=\"%.1f\" width=\"%d\" height=\"%.1f\"/>", left, y_of(k),
            right - left, map_row
        if (map_row > 15 || k % 2 == 0) printf "<text class=\"small end\" x=\"%d\" y=\"%.1f\">%s%d</text>\n", left - 8,
            y_of(k) + map_row / 2 + 4, (k == 0 ? "slot " : ""), k
    }
    axis(map_top, high)
    for (m = 0; m <= top_slot; m++)
        for (k = 1; k <= segments; k++) if (seg_slot[k] == m) lease_bar(k)
    for (m = 1; m <= moves; m++)
        printf "<path class=\"move c%d\" d=\"M%.1f %.1fL%.1f %.1f\"><title>%s: slot %d of %s is slot %d now</title>" \
            "</path>\n", move_of[m], x_of(move_at[m]) - 7, y_of(move_old[m]) + map_row / 2, x_of(move_at[m]) + 7,
            y_of(move_new[m]) + map_row / 2, at(move_at[m]), move_old[m], esc(whose(move_of[m])), move_new[m]
    event_lines(high + 16)
    print "</svg>"
    print "<p class=\"note\">Desk: + asks, − returns, close closes the gaps, P a patch row, pre a preamp command, " \
        "each with the tenant's number. " \
        "Damage: A an AES3 line, M a MADI frame, W a word before the patch, H an HD packet, C a control packet. " \
            "Talk: talkback open.</p></section>"
}

# ---- the patch

function patch_words(verdict, in_slot, slot) {
    if (verdict == "foreign") return "&#10007; foreign, &#8592; " in_slot
    if (verdict == "none") return in_slot == 64 ? "&#8211; none" : "&#8211; none, &#8592; " in_slot
    return in_slot == slot ? "" : "&#10003; &#8592; " in_slot
}

function patch_bar(k, y, s, x, w, words) {
    s = row[k, 2]; x = x_of(row[k, 6]) + 1; w = x_of(row[k, 7]) - x - 1
    if (w < 1) w = 1
    words = patch_words(row[k, 5], row[k, 3], s)
    if (row[k, 5] == "carried" && row[k, 4] != 0)
        printf "<rect %s class=\"bar c%d\" x=\"%.1f\" y=\"%.1f\" width=\"%.1f\" height=\"%.1f\">", fill(row[k, 4]),
            row[k, 4], x, y + 1.5, w, map_row - 3
    else
        printf "<rect class=\"%s\"%s x=\"%.1f\" y=\"%.1f\" width=\"%.1f\" height=\"%.1f\">", row[k, 5],
            (row[k, 5] == "foreign" ? " fill=\"url(#pf)\"" : ""), x, y + 1.5, w, map_row - 3
    printf "<title>slot %d of %s takes %s: %s, %s to %s</title></rect>\n", s, esc(whose(row[k, 4])),
        (row[k, 3] == 64 ? "none" : "slot " row[k, 3]), row[k, 5], at(row[k, 6]), at(row[k, 7])
    if (row[k, 5] != "carried" && w > (row[k, 5] == "none" ? 58 : 112))
        plate(x + 4, y, words, row[k, 5], row[k, 5] == "none" && row[k, 3] == 64 ? 52 : 106)
    else if (words != "" && w > 50) label(x + 4, y, w, row[k, 4], words, 44)
    else if (row[k, 5] == "carried" && w > 16) label(x + 4, y, w, row[k, 4], row[k, 4], 11)
}

# A label on a plate of the paper's colour.
function plate(x, y, words, class, wide) {
    printf "<rect class=\"plate\" x=\"%.1f\" y=\"%.1f\" width=\"%.1f\" height=\"%.1f\"/>", x - 1, y + 3, wide,
        map_row - 6
    printf "<text class=\"%s-words name\" x=\"%.1f\" y=\"%.1f\">%s</text>\n", class, x + 2, y + map_row / 2 + 4, words
}

function patch_map(k, s, n, y) {
    for (k = 1; k <= rows; k++) {
        if (!(row[k, 2] in patch_slot)) n++
        patch_slot[row[k, 2]] = 1
    }
    map_top = 26
    map_row = n > 32 ? 13 : 19
    print "<section id=\"patch\"><h2>Patch</h2>"
    print "<p>Each output slot, and what the patch made of its row. A plain bar is a slot that takes itself. An " \
        "arrow names the input slot. " \
        "A row is carried only within one tenant; a foreign or empty row is silent.</p>"
    printf "<svg viewBox=\"0 0 1080 %d\" role=\"img\" aria-label=\"Patch: output slot by time, with verdicts\">\n",
        map_top + n * map_row + 8
    n = 0
    for (s = 0; s < 64; s++) if (s in patch_slot) {
        y = y_of(n)
        if (n % 2 == 0) printf "<rect class=\"row\" x=\"%d\" y=\"%.1f\" width=\"%d\" height=\"%.1f\"/>", left, y,
            right - left, map_row
        printf "<text class=\"small end\" x=\"%d\" y=\"%.1f\">%s%d</text>\n", left - 8, y + map_row / 2 + 4,
            (n == 0 ? "slot " : ""), s
        n++
    }
    axis(map_top, y_of(n))
    n = 0
    for (s = 0; s < 64; s++) if (s in patch_slot) {
        for (k = 1; k <= rows; k++) if (row[k, 2] == s) patch_bar(k, y_of(n))
        n++
    }
    print "</svg>"
    patch_table()
    print "</section>"
}

function patch_table(k, verdict) {
    print "<div class=\"wide\"><table><caption>Rows that name another slot or none, and rows with words of odd " \
        "parity</caption>"
    print "<thead><tr><th>output slot</th><th>takes</th><th class=\"l\">tenant</th><th " \
        "class=\"l\">verdict</th><th>from</th><th>until</th><th>silent for odd parity, frames</th></tr></thead><tbody>"
    for (k = 1; k <= rows; k++) {
        verdict = row[k, 5]
        if (verdict == "carried" && row[k, 2] == row[k, 3] && row[k, 8] == 0) continue
        printf "<tr><td>%d</td><td>%s</td><td class=\"l\">%s</td><td class=\"l%s\">%s</td><td>%s</td><td>%s</td>",
            row[k, 2], (row[k, 3] == 64 ? "none" : row[k, 3]), esc(whose(row[k, 4])),
            (verdict == "foreign" ? " bad" : ""),
                (verdict == "carried" ? "&#10003; " : verdict == "foreign" ? "&#10007; " : "&#8211; ") verdict,
                at(row[k, 6]), at(row[k, 7])
        print cell(row[k, 8], "bad") "</tr>"
    }
    for (k = 1; k <= patched; k++)
        printf "<tr><td class=\"l w\" colspan=\"7\">%s: in its own blocks %d to %d the patch brought it something " \
            "else than its two channels.</td></tr>\n", esc(whose(patch_of[k, 2])), patch_of[k, 3], patch_of[k, 4] - 1
    print "</tbody></table></div>"
}
