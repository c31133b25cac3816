# Prints the path of each public call of the files that may answer out of memory, one a line, as a
# caller writes it: CRATE::TYPE::CALL or CRATE::CALL, with the public modules that it stands in
# behind the crate. The calls of other modules are handed on by the module around them.
#
# A call may answer out of memory where its signature names an allocator, a vector that it appends
# to, the error of a request that was refused, or one of those of a walk down a path or a folder,
# which has the allocator; or where it hands back what could not be stored. So do the calls of
# public types that sign, or are told what a walk finds. One whose result isn't a Result, an Option or
# a status can't: what it makes empty is what its contract says.

# The crate of a file.
function crate_of(file) {
    sub(/\/src\/.*/, "", file)
    sub(/.*\//, "", file)
    return file
}

# The modules of a file, with :: behind each: none of lib.rt.
function modules_of(file) {
    sub(/.*\/src\//, "", file)
    sub(/\.rt$/, "", file)
    if (file == "lib")
        return ""
    gsub(/\//, "::", file)
    return file "::"
}

# What stands behind a list of parameters in angle brackets, which may have such lists inside it.
function behind(line,    depth, i) {
    for (i = 1; i <= length(line); i++) {
        if (substr(line, i, 1) == "<")
            depth++
        else if (substr(line, i, 1) == ">" && --depth == 0)
            return substr(line, i + 1)
    }
    return ""
}

function type_of(line) {
    sub(/^impl */, "", line)
    if (line ~ /^</)
        line = behind(line)
    sub(/^ */, "", line)
    sub(/^(Signer|Visitor) for /, "", line)
    if (line ~ / for /)
        return ""
    sub(/[< {].*/, "", line)
    return line
}

function asks(text) {
    if (text ~ /-> / && text !~ /-> .*(Result<|Option<|ExitCode)/)
        return 0
    return text ~ /alloc: Global|AllocError|&mut Vec<u8>|Result<\(\), \([A-Z][a-z]+, [A-Z][a-z]+\)>/ ||
        text ~ /, (PathFault|WalkError)>/
}

function keep(type, name) {
    crates[++count] = crate_of(FILENAME)
    modules[count] = modules_of(FILENAME)
    names[count] = (type == "" ? "" : type "::") name
}

# The crate with those of the modules that are public.
function public_path(crate, modules,    count, parts, path, inside, i) {
    path = crate "::"
    count = split(modules, parts, "::")
    for (i = 1; i < count; i++) {
        inside = inside parts[i] "::"
        if ((crate, inside) in is_public)
            path = path parts[i] "::"
    }
    return path
}

FNR == 1 { type = ""; signature = ""; is_trait = 0 }

/^pub mod / {
    name = $3
    sub(/;.*/, "", name)
    is_public[crate_of(FILENAME), modules_of(FILENAME) name "::"] = 1
}

/^pub struct / {
    name = $3
    sub(/[<;({].*/, "", name)
    is_public_type[FILENAME, name] = 1
}

/^impl/ {
    type = type_of($0)
    is_trait = $0 ~ /(Signer|Visitor) for / && (FILENAME, type) in is_public_type
}

/^}/ { type = ""; is_trait = 0 }

/^(    )?pub (const )?fn / || (is_trait && /^    fn /) {
    signature = " "
    name = $0
    sub(/^ *(pub )?(const )?fn /, "", name)
    sub(/[<(].*/, "", name)
}

signature != "" {
    if ($0 ~ /^ *(requires|ensures|\{)/ || $0 ~ /^ *#/) {
        if (asks(signature))
            keep(type, name)
        signature = ""
    } else {
        signature = signature $0
        if ($0 ~ /\{ *$/) {
            if (asks(signature))
                keep(type, name)
            signature = ""
        }
    }
}

END {
    for (i = 1; i <= count; i++)
        print public_path(crates[i], modules[i]) names[i]
}
