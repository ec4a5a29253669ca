# The page of a night: levels, faults and repairs, refused calls and lost frames, the lines of the replay.

function cell(n, class) {
    return n == 0 ? "<td class=\"zero\">&#183;</td>" : "<td class=\"" class "\">" big(n) "</td>"
}

# The first cell of a minute's columns has a line before it.
function lined(s) { return s ~ /^<td class="/ ? "<td class=\"first " substr(s, 12) : s }

function minute_name(m) { return at(m * minute) }

# ---- levels

# The level of channel c: 0 for A, 1 for B.
function peak_of(m, t, c) { return sheet[m, t, 10 * c + 4] }
function mean_of(samples, sum) { return samples == 0 ? 0 : (sum < 0 ? -sum : sum) / samples }

function level_y(m, d) {
    d = m == 0 ? -100 : db(m)
    if (d < -100) d = -100
    return 14 - d * 1.3
}

# Channel c of a minute: a bar from the bottom to the peak, and a stroke at the mean.
function level_bar(t, m, c, x, w, y) {
    y = level_y(peak_of(m, t, c))
    printf "<rect %s class=\"bar c%d%s\" x=\"%.1f\" y=\"%.1f\" width=\"%.1f\" height=\"%.1f\">", fill(t), t,
        (c == 1 ? " dim" : ""), x, y, w, 144 - y
    printf "<title>%s, %s: peak %s dBFS</title></rect>\n", minute_name(m), (c == 0 ? "A" : "B"), dbfs(peak_of(m, t, c))
    y = level_y(mean_of(sheet[m, t, 10 * c], sheet[m, t, 10 * c + 5]))
    printf "<path class=\"mean\" d=\"M%.1f %.1fh%.1f\"/>\n", x, y, w
}

function small_words(x, y, words) {
    printf "<text class=\"small mid\" x=\"%.1f\" y=\"%d\">%s</text>\n", x, y, words
}

# The panel of a tenant; of a long night only some minutes have their names below.
function level_panel(t, m, c, x, w, gap, k) {
    printf "<figure><figcaption>%d %s</figcaption>\n<svg viewBox=\"0 0 500 176\" role=\"img\" ", t, esc(name[t])
    printf "aria-label=\"Peak and mean of tenant %d\">\n", t
    for (k = 0; k >= -100; k -= 20) {
        printf "<path class=\"grid\" d=\"M34 %.1fH496\"/>", 14 - k * 1.3
        printf "<text class=\"small end\" x=\"30\" y=\"%.1f\">%d</text>\n", 18 - k * 1.3, k
    }
    w = 230 / minutes
    gap = w > 5 ? 1.5 : 0
    for (m = 0; m < minutes; m++) {
        for (c = 0; c < 2; c++) {
            x = 36 + (2 * m + c) * w
            if (peak_of(m, t, c) != 0) level_bar(t, m, c, x + (c == 0 ? gap : 0), w - gap)
            if (minutes <= 16) small_words(x + w / 2, 156, c == 0 ? "A" : "B")
        }
        if (minutes <= 16) small_words(x, 170, minute_name(m))
        else if (m % int(minutes / 8) == 0) small_words(x - w, 170, minute_name(m))
    }
    print "</svg></figure>"
}

function level_cells(samples, sum, magnitude, first) {
    return (first ? "<td class=\"first\">" : "<td>") (samples == 0 ? "&#183;" : dbfs(magnitude)) "</td><td>" \
        (samples == 0 ? "&#183;" : dbfs(mean_of(samples, sum))) "</td>"
}

function levels(t, m, c) {
    print "<section id=\"levels\"><h2>Levels</h2>"
    print "<p>Peak and mean of both channels of each tenant as its AES3 line came in, in dBFS. A bar reaches to the " \
        "peak, A before B; the stroke is the mean. " \
        "The mean is that of the samples with their signs, as a level sheet has it: it shows an offset, not " \
            "loudness.</p>\n<div class=\"panels\">"
    for (t = 1; t <= 4; t++) if (t in name) level_panel(t)
    print "</div><div class=\"wide\"><table class=\"tight\"><caption>Sheets of the minutes, and the night's sheet, " \
        "which is the join of all of them: peak and mean in dBFS</caption><thead><tr><th></th>"
    for (t = 1; t <= 4; t++) if (t in name) printf "<th class=\"first l\" colspan=\"4\">%d %s</th>", t, esc(name[t])
    print "</tr><tr><th class=\"l\">from</th>"
    for (t = 1; t <= 4; t++) if (t in name) printf "<th class=\"first\">peak A</th><th>mean A</th><th>peak " \
        "B</th><th>mean B</th>"
    print "</tr></thead><tbody>"
    for (m = 0; m < minutes; m++) {
        printf "<tr><th class=\"l\">%s</th>", minute_name(m)
        for (t = 1; t <= 4; t++) if (t in name) for (c = 0; c < 2; c++)
            printf "%s", level_cells(sheet[m, t, 10 * c], sheet[m, t, 10 * c + 5], peak_of(m, t, c), c == 0)
        print "</tr>"
    }
    printf "<tr class=\"sum\"><th class=\"l\">night</th>"
    for (t = 1; t <= 4; t++) if (t in name) for (c = 0; c < 2; c++)
        printf "%s", level_cells(night[t, 10 * c], night[t, 10 * c + 5], night[t, 10 * c + 4], c == 0)
    print "</tr></tbody></table></div>"
    night_sheets()
    print "</section>"
}

function night_sheets(t, c, k) {
    print "<div class=\"wide\"><table><caption>The night's sheets</caption><thead><tr><th " \
        "class=\"l\">tenant</th><th>samples</th><th>smallest</th><th>largest</th><th>sum</th>" \
        "<th>at either end</th><th>frames with V</th><th>frames with E</th><th>right CRCCs</th></tr></thead><tbody>"
    for (t = 1; t <= 4; t++) if (t in name) for (c = 0; c < 2; c++) {
        printf "<tr><th class=\"l\">%d %s, %s</th>", t, esc(name[t]), (c == 0 ? "A" : "B")
        for (k = 0; k < 10; k++) {
            if (k == 1 || k == 4) continue
            if (k == 7 || k == 8) printf "%s", cell(night[t, 10 * c + k], "bad")
            else printf "<td>%s</td>", exact(night[t, 10 * c + k])
        }
        print "</tr>"
    }
    print "</tbody></table></div>"
}

# A number as the sheet has it: a sum may be more than awk's integers hold.
function exact(s, sign, r) {
    sign = s ~ /^-/ ? "&#8722;" : ""
    sub(/^-/, "", s)
    for (r = ""; length(s) > 3; s = substr(s, 1, length(s) - 3)) r = "," substr(s, length(s) - 2) r
    return sign s r
}

# ---- faults and repairs

# Figures of a minute, or of "all" of them.
function packet_cells(m, g) {
    for (g = 1; g <= 4; g++) if (g in name)
        printf "%s%s%s%s", lined("<td class=\"\">" big(hd[m, g, 4]) "</td>"), cell(hd[m, g, 5], "mend"), cell(hd[m, g,
            6], "bad"), cell(hd[m, g, 7], "bad")
}

function line_cells(m, t) {
    for (t = 1; t <= 4; t++) if (t in name)
        printf "%s%s", lined(cell(aes3_lost[m, t], "bad")), cell(sheet[m, t, 8] + sheet[m, t, 18], "bad")
    printf "%s%s%s", lined(cell(madi[m, 3], "mend")), cell(madi[m, 4], "bad"), cell(madi[m, 5], "bad")
}

function add_up(m, g, k) {
    for (m = 0; m < minutes; m++) {
        for (g = 1; g <= 4; g++) {
            for (k = 4; k <= 7; k++) hd["all", g, k] += hd[m, g, k]
            aes3_lost["all", g] += aes3_lost[m, g]
            sheet["all", g, 8] += sheet[m, g, 8]
            sheet["all", g, 18] += sheet[m, g, 18]
        }
        for (k = 3; k <= 5; k++) madi["all", k] += madi[m, k]
    }
}

# A table with a row for each minute and one for the night; which: 1 for packets, 2 for lines.
function fault_rows(which, m) {
    for (m = 0; m <= minutes; m++) {
        if (m == minutes) printf "<tr class=\"sum\"><th class=\"l\">night</th>"
        else printf "<tr><th class=\"l\">%s</th>", minute_name(m)
        if (which == 1) packet_cells(m == minutes ? "all" : m); else line_cells(m == minutes ? "all" : m)
        print "</tr>"
    }
    print "</tbody></table></div>"
}

function faults(t) {
    add_up()
    print "<section id=\"faults\"><h2>Faults and repairs</h2>"
    print "<p>By group and by minute. A dot is none.</p>"
    print "<div class=\"wide\"><table class=\"tight\"><caption>HD packets, as the replay counts them: read, lanes " \
        "mended, packets refused, breaks of the block numbers (DBN)</caption><thead><tr><th></th>"
    for (t = 1; t <= 4; t++) if (t in name) printf "<th class=\"first l\" colspan=\"4\">group %d: %s</th>", t,
        esc(name[t])
    print "</tr><tr><th class=\"l\">from</th>"
    for (t = 1; t <= 4; t++) if (t in name) printf "<th " \
        "class=\"first\">read</th><th>mended</th><th>refused</th><th>breaks</th>"
    print "</tr></thead><tbody>"
    fault_rows(1)
    print "<div class=\"wide\"><table class=\"tight\"><caption>AES3 lines: blocks refused, subframes that came with " \
        "odd parity (E). MADI: frames damaged, refused, and damaged but passed by every " \
        "check</caption><thead><tr><th></th>"
    for (t = 1; t <= 4; t++) if (t in name) printf "<th class=\"first l\" colspan=\"2\">AES3, %d %s</th>", t,
        esc(name[t])
    print "<th class=\"first l\" colspan=\"3\">MADI, all tenants</th></tr><tr><th class=\"l\">from</th>"
    for (t = 1; t <= 4; t++) if (t in name) printf "<th class=\"first\">refused</th><th>E</th>"
    print "<th class=\"first\">damaged</th><th>refused</th><th>passed</th></tr></thead><tbody>"
    fault_rows(2)
    print "</section>"
}

# ---- what was refused, and what it cost

function listing(k) {
    print "<section id=\"refused\"><h2>Refused calls and lost frames</h2>"
    print "<div class=\"wide\"><table><caption>Calls that the library refused, with number and first place</caption>"
    print "<thead><tr><th>at</th><th class=\"l\">whose</th><th>number</th><th>place</th><th>times</th><th " \
        "class=\"l\">call and reason</th></tr></thead><tbody>"
    for (k = 1; k <= refusals; k++)
        printf "<tr><td>%s</td><td class=\"l\">%s</td><td>%d</td><td>%d</td><td>%d</td><td class=\"l " \
            "w\">%s</td></tr>\n", at(refusal[k, 2]), esc(whose(refusal[k, 3])), \
            refusal[k, 4], refusal[k, 5], refusal[k, 6], esc(refusal_text[k])
    if (refusals == 0) print "<tr><td class=\"l\" colspan=\"6\">none</td></tr>"
    print "</tbody></table></div>"
    print "<div class=\"wide\"><table><caption>Frames that did not come out as they went in, all of them damaged on " \
        "the way</caption>"
    print "<thead><tr><th>at</th><th>own block</th><th class=\"l\">tenant</th><th " \
        "class=\"l\">output</th><th>frames</th><th>first</th><th>last</th></tr></thead><tbody>"
    for (k = 1; k <= losses; k++)
        printf "<tr><td>%s</td><td>%s</td><td class=\"l\">%s</td><td " \
            "class=\"l\">%s</td><td>%d</td><td>%d</td><td>%d</td></tr>\n", at(loss[k, 2]), big(loss[k, 3]),
            esc(whose(loss[k, 4])), \
            (loss[k, 5] == "hd" ? "HD packets" : "AES3 line"), loss[k, 6], loss[k, 7], loss[k, 8]
    if (losses == 0) print "<tr><td class=\"l\" colspan=\"7\">none</td></tr>"
    print "</tbody></table></div></section>"
}

function replay_lines(line) {
    print "<section id=\"replay\"><h2>Replay of the night's packets</h2><p>The lines of packet_replay over the " \
        "records of the night.</p><pre>"
    while ((getline line <replay) > 0) print esc(line)
    print "</pre></section>"
}
