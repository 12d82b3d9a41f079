# Makes the manual pages of the header:
#   awk -f tools/man.awk -v version=V -v date=D include/curlew.h > curlew.3
#   awk -f tools/man.awk -v version=V -v date=D -v call=curlew_pack include/curlew.h > curlew_pack.3
# The comment at the header's top is the text of curlew(3), the one above a call's declaration that of the call's page: a
# line in capitals is a heading, what is indented stays as it is, and `a word` turns bold. The structures and the helpers
# follow in curlew(3) with the comments above them.

# The header, with what is special to roff made plain.
function plain(s) {
    gsub(/\\/, "\\e", s)
    gsub(/-/, "\\-", s)
    gsub(/'/, "\\(aq", s)
    gsub(/\^/, "\\(ha", s)
    gsub(/~/, "\\(ti", s)
    return s
}

# No line may begin like a request.
function guarded(s) {
    return s ~ /^[.']/ ? "\\&" s : s
}

# Words in `..` are bold.
function bold(s,    done) {
    while (match(s, /`[^`]*`/)) {
        done = done substr(s, 1, RSTART - 1) "\\fB" substr(s, RSTART + 1, RLENGTH - 2) "\\fR"
        s = substr(s, RSTART + RLENGTH)
    }
    return done s
}

# Text that is filled comes in lines of its own, none long.
function put_words(s,    words, n, i, line) {
    n = split(bold(plain(s)), words, " ")
    for (i = 1; i <= n; i++) {
        if (line != "" && length(line) + 1 + length(words[i]) > 76) {
            print guarded(line)
            line = ""
        }
        line = line (line == "" ? "" : " ") words[i]
    }
    if (line != "")
        print guarded(line)
}

function heading(s) {
    print ".SH \"" s "\""
    headed = 1
}

# What begins a paragraph; the first under a heading needs nothing.
function begin(lead) {
    if (!headed || lead != ".PP")
        print lead
    headed = 0
}

function end_paragraph() {
    if (paragraph != "") {
        begin(lead)
        put_words(paragraph)
    }
    paragraph = ""
    lead = ".PP"
}

function end_lines() {
    if (fixed)
        print ".fi"
    fixed = 0
    blank = 0
}

function put_line(s) {
    end_paragraph()
    if (!fixed) {
        begin(".PP")
        print ".nf"
    } else if (blank)
        print ""
    fixed = 1
    blank = 0
    s = plain(s)
    gsub(/`/, "\\(ga", s)
    print guarded(s)
}

# One line of the comment at the top.
function put_text(s) {
    if (s ~ /^[A-Z][A-Z:, ]+$/) {
        end_paragraph()
        end_lines()
        heading(s)
    } else if (s == "") {
        end_paragraph()
        blank = 1
        listed = 0
    } else if (s ~ /^- /) {
        end_paragraph()
        end_lines()
        lead = ".IP \\(bu 2"
        paragraph = substr(s, 3)
        listed = 1
    } else if (s ~ /^ / && !listed) {
        put_line(s)
    } else {
        end_lines()
        sub(/^ +/, "", s)
        paragraph = paragraph (paragraph == "" ? "" : " ") s
    }
}

# A text with headings, lists and code in it, as it stands in a comment.
function put_comment(s,    m, k, lines) {
    m = split(s, lines, "\n")
    for (k = 1; k <= m; k++)
        put_text(lines[k])
    end_paragraph()
    end_lines()
}

function put_code(s,    m, k, lines) {
    m = split(s, lines, "\n")
    for (k = 1; k <= m; k++)
        put_line(lines[k])
    end_lines()
}

function put_declarations(title, texts, codes, n,    i) {
    heading(title)
    for (i = 1; i <= n; i++) {
        put_comment(texts[i])
        put_code(codes[i])
    }
}

function put_title(name, says) {
    print ".\\\" Made from curlew.h by tools/man.awk."
    print ".TH " toupper(name) " 3 \"" date "\" \"curlew " version "\""
    print ".SH NAME\n" name " \\- " plain(says)
    print ".SH SYNOPSIS\n.nf\n#include <curlew.h>\n.fi"
}

# The page of a call: what the comment above its declaration says.
function put_call_page(i,    text, line) {
    text = call_texts[i]
    match(text, /[^\n]*\n/)
    line = substr(text, 1, RLENGTH - 1)
    sub(/^[a-z_]* - /, "", line)
    put_title(call_names[i], line)
    put_code(call_codes[i])
    heading("DESCRIPTION")
    put_comment(substr(text, RLENGTH + 1))
    heading("SEE ALSO")
    put_words("`curlew`(3), which has what all calls share: slots, layouts, the numbers of refusals, sizes, duties, helpers.")
}

# The page of the whole.
function put_page(    i, also) {
    sub(/^curlew\.h - /, "", text[1])
    put_title("curlew", text[1])
    print ".PP\n.nf\ncc program.c $(pkg\\-config \\-\\-cflags \\-\\-libs curlew)\n.fi"
    heading("DESCRIPTION")
    for (i = 2; i <= lines_of_text; i++)
        put_text(text[i])
    end_paragraph()
    end_lines()
    heading("CALLS")
    put_comment("Each has a page of its own.")
    for (i = 1; i <= number_of_calls; i++) {
        put_code(call_codes[i])
        also = also ", `" call_names[i] "`(3)"
    }
    put_declarations("STRUCTURES", structure_texts, structure_codes, number_of_structures)
    put_declarations("HELPERS", helper_texts, helper_codes, number_of_helpers)
    heading("SEE ALSO")
    put_words("`curlew`(1)" also)
}

# What stands between the signs of a comment.
function bare(s) {
    sub(/ *\*\/$/, "", s)
    sub(/^\/\* ?/, "", s)
    sub(/^ \* ?/, "", s)
    return s
}

# The comment at the top.
/^\/\*$/ && !begun { begun = 1; top = 1; next }
top && /^ \*\/$/ { top = 0; next }
top { text[++lines_of_text] = bare($0); next }

# A declaration, the comment above it, and whether it is a call of the library.
/^extern "C"/ { calls = 1; next }
/^\/\*/ { comment = ""; commented = 1 }
commented {
    comment = comment (comment == "" ? "" : "\n") bare($0)
    if ($0 ~ /\*\/$/)
        commented = 0
    next
}
/^#ifdef __cplusplus/ { calls = 0 }
/^uint32_t curlew_/ && calls { code = ""; declared = 1 }
/^static inline / { sub(/^static inline /, ""); code = ""; declared = 1 }
/^struct curlew_[a-z]* \{$/ { code = ""; structured = 1 }
declared || structured { code = code (code == "" ? "" : "\n") $0 }
structured && /^\};$/ {
    structured = 0
    structure_texts[++number_of_structures] = comment
    structure_codes[number_of_structures] = code
}
declared && /;$/ {
    declared = 0
    call_texts[++number_of_calls] = comment
    call_codes[number_of_calls] = code
    match(code, /curlew_[a-z_]*/)
    call_names[number_of_calls] = substr(code, RSTART, RLENGTH)
}
declared && /\)$/ {
    declared = 0
    helper_texts[++number_of_helpers] = comment
    helper_codes[number_of_helpers] = code ";"
}

END {
    lead = ".PP"
    if (call == "")
        put_page()
    for (i = 1; i <= number_of_calls; i++)
        if (call_names[i] == call) {
            put_call_page(i)
            found = 1
        }
    if (call != "" && !found) {
        print "man.awk: no call " call > "/dev/stderr"
        exit 1
    }
}
