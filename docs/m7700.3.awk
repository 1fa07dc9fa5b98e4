# Makes the page m7700(3) from the text of include/m7700.h: awk -v version=VERSION -f docs/m7700.3.awk include/m7700.h
#
# A comment that begins in the first column is text. In it a line of capitals is a heading, '  - ' begins an item that
# lines indented by four blanks go on, and other lines so indented are shown as they stand; so are declarations. What
# stands in `..` is bold. The page ends at the comment that begins with dashes.

# A line of the page.
function say(line) {
    gsub(/\\/, "\\e", line)
    gsub(/-/, "\\-", line)
    while (match(line, /`[^`]*`/))
        line = substr(line, 1, RSTART - 1) "\\fB" substr(line, RSTART + 1, RLENGTH - 2) "\\fR" \
            substr(line, RSTART + RLENGTH)
    print (line ~ /^[.\047]/ ? "\\&" : "") line
    headed = 0
}

function begin_paragraph() {
    if (!headed)
        print ".PP"
}

# A line as it stands.
function show(line) {
    if (!shown) {
        begin_paragraph()
        print ".nf"
    } else if (blank)
        print ""
    shown = 1
    blank = 0
    say(line)
}

function end_shown() {
    if (shown)
        print ".fi"
    shown = 0
}

# A line of a comment, without its stars.
function text(line) {
    if (item && line ~ /^    /) {
        say(substr(line, 5))
        return
    }
    item = line ~ /^  - /
    if (line ~ /^    /) {
        show(substr(line, 5))
        return
    }
    if (line == "") {
        blank = 1
        return
    }
    end_shown()
    if (line ~ /^[A-Z][A-Z ]*$/) {
        print ".SH " line
        headed = 1
    } else if (item) {
        print ".IP \\(bu 2"
        say(substr(line, 5))
    } else {
        if (blank)
            begin_paragraph()
        say(line)
    }
    blank = 0
}

BEGIN { print ".TH M7700 3 \"\" \"m7700 " version "\"" }

/^\/\* ----/ { exit }
/^\/\*/ { within = blank = 1 }

within {
    within = !/\*\/$/
    sub(/ ?\*\/$/, "")
    sub(/^(\/\*| \*) ?/, "")
    text($0)
    next
}

# What C and C++ need, but no reader.
/^#(if|endif|include)/ || /^#define M7700_H$/ || /^extern "C"/ || $0 == "}" { next }

$0 == "" { blank = 1; next }
{ show($0) }

END { end_shown() }
