# The figures of a night as one tenant may see them: its own, and what is the house's. Of the others nothing is left;
# their slots are like free ones. Usage: awk -v only=T -f night_page_for.awk figures.txt
$1 == "tenant" || $1 == "night" || $1 == "patched" { if ($2 != only) next }
$1 == "sheet" || $1 == "aes3" || $1 == "hd" { if ($3 != only) next }
$1 == "event" || $1 == "refused" || $1 == "differs" { if ($3 != only && $3 != 0) next }
$1 == "row" || $1 == "lost" { if ($4 != only) next }
$1 == "move" { if ($5 != only) next }
$1 == "leases" { for (k = 3; k <= NF; k++) if ($k != only) $k = 0 }
$1 == "found" { next }
$1 == "lost" { frames += $6 }
$1 == "differs" { differing++ }
$1 == "verdict" { if ($2 == "differs" && differing == 0) $2 = "as-sent" }
$1 == "hd" { lanes += $5 }
$1 == "lost-frames" { $2 = frames + 0 }
$1 == "mended" { $2 = lanes + 0 }
{ print }
