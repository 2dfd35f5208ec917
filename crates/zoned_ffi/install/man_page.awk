# Writes the declarations of a header as sections of a man page: awk -f man_page.awk HEADER ..
# A comment and the declarations after it, up to an empty line, are one section, which is named after what they declare.
function escaped(text) {
    gsub(/\\/, "\\e", text)
    gsub(/-/, "\\-", text)
    while (match(text, /`[^`]*`/))
        text = substr(text, 1, RSTART - 1) "\\fI" substr(text, RSTART + 1, RLENGTH - 2) "\\fR" substr(text, RSTART + RLENGTH)
    return text ~ /^[.']/ ? "\\&" text : text
}
function words(text,    i, count, lines, is_code) {
    sub(/^\/\* */, "", text)
    sub(/ *\*\/$/, "", text)
    count = split(text, lines, "\n")
    for (i = 1; i <= count; i++) {
        sub(/^   /, "", lines[i])
        if (lines[i] ~ /^  / && !is_code) { print ".PP\n.nf"; is_code = 1 }
        if (lines[i] !~ /^  / && lines[i] != "" && is_code) { print ".fi\n.PP"; is_code = 0 }
        if (lines[i] == "" && !is_code) print ".PP"
        else print escaped(lines[i])
    }
    if (is_code) print ".fi"
}
# What a line declares.
function name_of(line) {
    if (line ~ /^(typedef )?(struct|enum) zoned_[a-z_]* \{/) { sub(/^(typedef )?/, "", line); sub(/ \{.*/, "", line); return line }
    if (line ~ /^[a-z].*zoned_[a-z_]*\(/) { sub(/\(.*/, "", line); sub(/.*[ *]/, "", line); return line }
    if (line ~ /^#define ZONED_[A-Z_]* [^_]/ && line !~ /_(H|CHECK)( |$)/) { sub(/^#define /, "", line); sub(/ .*/, "", line); return line }
    return ""
}
function finish(    i) {
    if (names != "") {
        print ".SS " names
        print ".nf"
        for (i = 1; i <= held; i++) print "\\fB" escaped(code[i]) "\\fR"
        print ".fi"
        if (comment != "") { print ".PP"; words(comment) }
    }
    comment = names = ""
    held = 0
}
in_comment { comment = comment "\n" $0; if ($0 ~ /\*\/$/) in_comment = 0; next }
/^\/\*/ && held == 0 { comment = $0; in_comment = $0 !~ /\*\/$/; next }
$0 == "" { if (depth <= 0) finish(); next }
comment != "" || held {
    line = $0
    name = name_of(line)
    if (name != "") names = names (names == "" ? "" : ", ") name
    gsub(/ ?ZONED_(MUST_CHECK|NONNULL\(\([0-9, ]*\)\))/, "", line)
    depth += gsub(/\{/, "{", line) - gsub(/\}/, "}", line)
    if (line !~ /^ *$/) {
        if (line ~ /^ *;$/ && held) code[held] = code[held] ";"
        else code[++held] = line
    }
}
END { finish() }
