# Prints the functions of the door, one to a line and all in one form: those of the crate host (side=host) or those that door.rs declares
# (side=rust). A function is given as it is called; one that is lent slices also as it passes them, each as pointer and length. The length of
# a list is given as a number; where a name stands for it, the constant is looked up in the files given, those of other crates too.
# What these patterns do not read is a fault, so that no declaration slips through unseen.

function fault(why) {
    print "signatures: " side ": " why >"/dev/stderr"
    faults++
}

# Makes alike what a line break may change. A list's length stands behind '*', so that ';' only ends a declaration.
function even(text) {
    gsub(/[ \t]+/, " ", text)
    gsub(/\( /, "(", text)
    gsub(/,? \)/, ")", text)
    gsub(/ ;/, ";", text)
    while (match(text, /\[[a-z][a-z0-9]*; [^]]+\]/)) {
        text = substr(text, 1, RSTART - 1) starred(substr(text, RSTART, RLENGTH)) substr(text, RSTART + RLENGTH)
    }
    return text
}

function starred(type,   at) {
    at = index(type, "; ")
    return substr(type, 1, at - 1) "*" number(substr(type, at + 2, length(type) - at - 2), side) "]"
}

# What an expression of this crate comes to: a sum of products of numbers and constants.
function number(expression, home,   n, i, terms, m, j, factors, product, sum) {
    n = split(expression, terms, / \+ /)
    for (i = 1; i <= n; i++) {
        product = 1
        m = split(terms[i], factors, / \* /)
        for (j = 1; j <= m; j++) product *= value(factors[j], home)
        sum += product
    }
    return sum
}

# A constant of the crate itself stands there by its name alone.
function value(name, home,   path) {
    if (name ~ /^[0-9]+$/) return name
    if (name !~ /::/) name = home "::" name
    if (declarations[name] != 1) {
        fault(name ": " declarations[name] + 0 " constants have this name")
        return 0
    }
    split(name, path, "::")
    return number(constant[name], path[1])
}

function is_slice(type) {
    return type ~ /^&(mut )?\[[a-z0-9]+\]$/
}

# How a type passes.
function passed(type) {
    if (type in alias) return alias[type]
    if (!is_slice(type)) return type
    sub(/^&mut \[/, "*mut ", type)
    sub(/^&\[/, "*const ", type)
    sub(/\]$/, ", usize", type)
    return type
}

# What door.rs has to write for an argument of this type.
function written(parameter, type) {
    if (!is_slice(type)) return parameter
    return parameter (type ~ /^&mut/ ? ".as_mut_ptr(), " : ".as_ptr(), ") parameter ".len()"
}

# Takes NAME(PARAMETERS)REST apart. Of the parameters it makes what they pass and what is written for them.
function take(declaration,   n, i, parts, colon, parameter, type) {
    name = substr(declaration, 1, index(declaration, "(") - 1)
    parameters = substr(declaration, length(name) + 2, index(declaration, ")") - length(name) - 2)
    rest = substr(declaration, index(declaration, ")") + 1)
    types = arguments = ""
    slices = 0
    n = split(parameters, parts, /, /)
    for (i = 1; i <= n; i++) {
        colon = index(parts[i], ": ")
        if (!colon) fault(name ": a parameter is not read: " parts[i])
        parameter = substr(parts[i], 1, colon - 1)
        type = substr(parts[i], colon + 2)
        slices += is_slice(type)
        types = types (i > 1 ? ", " : "") passed(type)
        arguments = arguments (i > 1 ? ", " : "") written(parameter, type)
    }
}

function say_called(answer) { print name "(" parameters ")" answer }
function say_passed(answer) { print name " passes (" types ")" answer }

# A function of the host ends where its statement or its body begins.
function read_host(text,   n, i, parts) {
    n = split(text, parts, /#\[unsafe\(no_mangle\)\] pub extern "C" fn /)
    for (i = 1; i <= n; i++) {
        if (match(parts[i], /extern|no_mangle/)) fault("not read: " substr(parts[i], RSTART, 60))
        if (i == 1) continue
        if (!match(parts[i], /^[a-z0-9_]+\([^()]*\)( -> [^ ]+)? (ensures|requires|\{)/)) {
            fault("not read: " substr(parts[i], 1, 60))
            continue
        }
        take(substr(parts[i], 1, RLENGTH))
        sub(/ (ensures|requires|\{)$/, "", rest)
        say_called(rest)
        if (slices) say_passed(rest)
    }
}

# door.rs has three ways to write a function: a safe declaration, one that passes pointers, and by a macro the form over that, which takes
# slices and gives back a u32. A name that it uses is its own or one of layout.rs.
function read_door(text,   macro, at, n, i, parts, before) {
    macro = "macro_rules! takes_slices { ($(fn $name:ident($($parameter:ident: $type:ty),*) = ($($argument:expr),*);)*) => { " \
        "$(#[inline] pub fn $name($($parameter: $type),*) -> u32 { unsafe { lent::$name($($argument),*) } })* }; }"
    at = index(text, macro)
    if (!at) fault("the macro takes_slices is not the one that is read here")
    text = substr(text, 1, at - 1) substr(text, at + length(macro))
    gsub(/unsafe extern "C" \{/, "", text)
    gsub(/use crate::layout::(\{[A-Z_, ]+\}|[A-Z_]+);/, "", text)

    n = split(text, parts, /;/)
    for (i = 1; i <= n; i++) {
        before = parts[i]
        if (match(before, /type [A-Za-z]+ = [^=]+$/)) {
            at = index(substr(before, RSTART), " = ")
            alias[substr(before, RSTART + 5, at - 6)] = substr(before, RSTART + at + 2)
        } else if (match(before, /pub safe fn [a-z0-9_]+\([^()]*\)( -> [^ ]+)?$/)) {
            take(substr(before, RSTART + length("pub safe fn ")))
            say_called(rest)
        } else if (match(before, /pub fn [a-z0-9_]+\([^()]*\)( -> [^ ]+)?$/)) {
            take(substr(before, RSTART + length("pub fn ")))
            say_passed(rest)
        } else if (match(before, /fn [a-z0-9_]+\([^()]*\) = \(.*\)$/)) {
            take(substr(before, RSTART + length("fn ")))
            say_called(" -> u32")
            if (rest != " = (" arguments ")") fault(name ": passes something else than its parameters:" rest)
        }
        if (RSTART) before = substr(before, 1, RSTART - 1)
        if (before ~ /extern|fn |rv_|#|use /) fault("not read: " before)
    }
}

FNR == 1 {
    depth = split(FILENAME, folders, "/")
    crate = folders[depth - 2]
}

{
    sub(/\/\/.*/, "")
    if (/\/\*/) fault("not read: " $0)
}

match($0, /const [A-Z0-9_]+: usize = [^;]+;/) {
    split(substr($0, RSTART + 6, RLENGTH - 7), halves, ": usize = ")
    name = crate "::" halves[1]
    declarations[name]++
    constant[name] = halves[2]
}

crate == side {
    all = all " " $0
}

END {
    if (side == "host") read_host(even(all))
    if (side == "rust") read_door(even(all))
    exit faults > 0
}
