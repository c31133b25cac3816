# Makes the manual page librpki(3) of the header: its comments as text, its declarations as they
# stand. Behind them stands a program as its example.
#   awk -f callers/c/page.awk include/rpki.h callers/c/holds.c
# Makes the page of one call: what the header says of it and of each type that it needs. Its example
# is the first paragraph of the programs that has the call.
#   awk -v call=rpki_list_read -f callers/c/page.awk include/rpki.h callers/c/*.c

# ---- reading: a block is a heading, or a comment and what is declared behind it

FNR == 1 { files++ }
files > 1 { read_program($0) }
# what is for C++ alone is left out
files == 1 && /^#ifdef __cplusplus$/ { in_cplusplus = 1 }
in_cplusplus { in_cplusplus = !/^#(else|endif)/; next }
# of a table the first line is kept, and of a function with its body what a declaration would say
in_table { in_table = /\\$/; next }
in_body { in_body = $0 != "}"; next }
files == 1 && /^#define RPKI_EACH_/ { in_table = 1; sub(/ *\\$/, ""); code[blocks] = code[blocks] $0 "\n"; next }
files == 1 && /^static inline/ { in_head = 1 }
in_head { in_head = !(in_body = sub(/ \{$/, ";")); code[blocks] = code[blocks] $0 "\n"; next }
files > 1 || (/^#if|^#else|^#endif|^#include|^#define RPKI_H$|^extern "C"|^}$/) { next }

/^\/\* ---- / {
    gsub(/^\/\* ---- | *\*\/$/, "")
    heading[++blocks] = toupper(substr($0, 1, 1)) substr($0, 2)
    next
}
/^\/\*/ { blocks++; in_comment = 1 }
in_comment {
    if ($0 ~ /\*\/ *$/) in_comment = 0
    gsub(/^ *\/?\*+\/? ?| *\*\/ *$/, "")
    comment[blocks] = comment[blocks] $0 "\n"
    next
}
# a declaration ends with an empty line, but where a brace is open
/./ || index(code[blocks], "{") && code[blocks] !~ /[}];\n$/ { code[blocks] = code[blocks] $0 "\n" }

# Keeps a program's lines, and the first paragraph that has the call.
function read_program(line) {
    if (FNR == 1) end_of_paragraph()
    program = program line "\n"
    if (line == "") { end_of_paragraph(); return }
    paragraph = paragraph line "\n"
    if (call != "" && index(line, call "(")) has_call = 1
}
function end_of_paragraph() {
    if (has_call && example == "") example = paragraph
    paragraph = ""
}

# ---- writing

# Prints a line, and before it what parts it from the text above it.
function put(line) {
    if (is_apart && last !~ /^\.S[hs]/) print ".Pp"
    is_apart = 0
    print line
    last = line
}

# Prints words in lines of at most 78 columns, each sentence from a line of its own.
function print_words(text, words, count, i, line) {
    gsub(/\\/, "\\e", text)
    count = split(text, words, " ")
    for (i = 1; i <= count; i++) {
        line = line (line == "" ? "" : " ") words[i]
        if (i == count || length(line) + length(words[i + 1]) > 77 || words[i] ~ /[.?!]$/) {
            put((line ~ /^[.']/ ? "\\&" : "") line)
            line = ""
        }
    }
}

# Ends the paragraph, or the item of a list, and the list where there is one.
function end_paragraph() {
    if (text != "") print_words(text)
    text = ""
}
function end_list() {
    end_paragraph()
    if (in_list) put(".El")
    in_list = 0
}

# Prints a comment: paragraphs, and lists of lines that begin with a hyphen.
function print_comment(of, lines, count, i) {
    is_apart = 1
    count = split(of, lines, "\n")
    for (i = 1; i < count; i++) {
        if (lines[i] ~ /^  - /) {
            end_paragraph()
            if (!in_list) put(".Bl -dash -compact")
            in_list = 1
            put(".It")
            text = substr(lines[i], 5)
        } else if (lines[i] == "") {
            end_list()
            is_apart = 1
        } else {
            if (in_list && lines[i] !~ /^    /) { end_list(); is_apart = 1 }
            text = text " " lines[i]
        }
    }
    end_list()
}

# Prints lines as they stand.
function print_literal(lines) {
    if (lines == "") return
    put(".Bd -literal")
    gsub(/\\/, "\\e", lines)
    printf "%s", lines
    put(".Ed")
}

function begin_page(name, about) {
    print ".Dd November 28, 2026\n.Dt " toupper(name) " 3\n.Os"
    print ".Sh NAME\n.Nm " name "\n.Nd " about
    print ".Sh LIBRARY\n.Dl cc -o mine mine.c $(pkg-config --cflags --libs rpki)"
    print ".Sh SYNOPSIS\n.In rpki.h"
}

# The call that a block declares.
function call_of(block) {
    if (code[block] ~ /[{}]/ || !match(code[block], /rpki_[a-z0-9_]*\(/)) return ""
    return substr(code[block], RSTART, RLENGTH - 1)
}

# What a call does, in a few words: how its comment begins.
function few_words(of) {
    gsub(/\n/, " ", of)
    gsub(/ \([^)]*\)/, "", of)
    sub(/[:,.] .*/, "", of)
    sub(/ as rpki_.*/, "", of)
    return tolower(substr(of, 1, 1)) substr(of, 2)
}

# Prints a declaration as a synopsis.
function print_synopsis(of, parts, count, i) {
    gsub(/\n */, " ", of)
    print ".Ft " substr(of, 1, index(of, " ") - 1)
    print ".Fo " call
    sub(/^[^(]*\(/, "", of)
    sub(/\);.*/, "", of)
    count = split(of, parts, / *, */)
    for (i = 1; i <= count; i++) print ".Fa \"" parts[i] "\""
    print ".Fc"
}

# Marks the types that a text names, and those that their declarations name.
function mark_types(of, i, name) {
    while (match(of, /(struct|enum) rpki_[a-z_]*/)) {
        name = substr(of, RSTART, RLENGTH)
        of = substr(of, RSTART + RLENGTH)
        for (i = 1; i <= blocks; i++)
            if (index(code[i], name " {") == 1 && !(i in is_needed)) {
                is_needed[i] = 1
                mark_types(substr(code[i], length(name)))
            }
    }
}

function call_page(block, i) {
    begin_page(call, few_words(comment[block]))
    print_synopsis(code[block])
    put(".Sh DESCRIPTION")
    print_comment(comment[block])
    if (code[block] ~ /size_t room,.*count/)
        for (i = 1; i <= blocks; i++)
            if (comment[i] ~ /^Every function with .out., .room. and .count./)
                print_comment(comment[i])
    mark_types(code[block] comment[block])
    for (i = 1; i <= blocks; i++) {
        if (!(i in is_needed)) continue
        if (!has_types++) put(".Ss Types")
        print_comment(comment[i])
        print_literal(code[i])
    }
    if (code[block] !~ /\(void\)/) {
        put(".Sh RETURN VALUES")
        print_words("RPKI_OK, which is 0, or the number of a fault. " \
            "rpki_fault_sentence tells what it means. " \
            "After a fault, what the function writes says nothing, unless the text says more.")
        put(".Pp")
        print_words("librpki(3) has all faults, and what holds for every function: " \
            "octets are DER, nothing has to be freed, and threads may call side by side.")
    }
    if (example != "") {
        put(".Sh EXAMPLES")
        print_literal(example)
    }
    print ".Sh SEE ALSO\n.Xr librpki 3"
}

function whole_page(i) {
    begin_page("librpki", "resource certificates and revocation lists of the RPKI, for C")
    put(".Sh DESCRIPTION")
    for (i = 1; i <= blocks; i++) {
        if (i in heading) put(".Ss " heading[i])
        print_comment(comment[i])
        print_literal(code[i])
    }
    put(".Sh ENVIRONMENT")
    print_words("Where the library isn't in a folder of the system's, these name where it is:")
    print ".Bl -tag -width Ds"
    print ".It Ev PKG_CONFIG_PATH\nthe folder of rpki.pc, for pkg-config."
    print ".It Ev LD_LIBRARY_PATH"
    print "the folder of librpki.so, as a program runs that was linked to it."
    print "A program that was linked to librpki.a has the library in it."
    print ".El"
    put(".Sh EXAMPLES")
    print_literal(program)
    print ".Sh SEE ALSO\n.Xr pkg-config 1 ,\n.Xr rpki 1"
}

END {
    end_of_paragraph()
    if (call == "") { whole_page(); exit }
    for (i = 1; i <= blocks; i++) if (call_of(i) == call) { call_page(i); exit }
    print "page.awk: no call " call > "/dev/stderr"
    exit 1
}
