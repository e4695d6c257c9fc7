# Prints a man page of simple macros as plain text: sections, paragraphs, tagged items, examples.
function fonts(text) {
    gsub(/\\f[BIRP]/, "", text)
    gsub(/\\-/, "-", text)
    gsub(/\\\(aq/, "'", text)
    gsub(/\\&/, "", text)
    gsub(/\\e/, "\\", text)
    return text
}

# The words of a macro as one: what stands in quotes keeps its blanks.
function joined(text, all) {
    all = ""
    while (match(text, /"[^"]*"|[^ "]+/)) {
        all = all substr(text, RSTART, RLENGTH)
        text = substr(text, RSTART + RLENGTH)
    }
    gsub(/"/, "", all)
    return all
}

# Writes what was gathered, filled to 78 columns behind this indent.
function flush(words, count, i, line) {
    count = split(gathered, words, " ")
    line = ""
    for (i = 1; i <= count; i++) {
        if (line != "" && indent + length(line) + 1 + length(words[i]) > 78) {
            printf "%*s%s\n", indent, "", line
            line = words[i]
        } else {
            line = line == "" ? words[i] : line " " words[i]
        }
    }
    if (line != "") printf "%*s%s\n", indent, "", line
    gathered = ""
}

BEGIN { indent = 7 }
/^\.\\"/ { next }
/^\.TH / { next }
/^\.SH / { flush(); indent = 7; sub(/^\.SH /, ""); gsub(/"/, ""); printf "%s%s\n", begun++ ? "\n" : "", $0; next }
/^\.SS / { flush(); indent = 7; sub(/^\.SS /, ""); printf "\n   %s\n", $0; next }
/^\.TP/ { flush(); indent = 7; tag = 1; next }
/^\.(PP|P)$/ { flush(); indent = 7; print ""; next }
/^\.IP/ { flush(); indent = 14; next }
/^\.br/ { flush(); next }
/^\.(nf|EX)/ { flush(); exact = 1; print ""; next }
/^\.(fi|EE)/ { exact = 0; next }
/^\.(RS|RE|ad|na|hy|nh)/ { flush(); next }
/^\.(BR|IR|IB|BI|RB|RI) / { sub(/^\.[A-Z]+ /, ""); $0 = joined($0) }
/^\.[BI] / { sub(/^\.[BI] /, "") }
exact { printf "%*s%s\n", indent + 4, "", fonts($0); next }
tag { printf "\n%*s%s\n", indent, "", fonts($0); indent = 14; tag = 0; next }
{ gathered = gathered " " fonts($0) }
END { flush() }
