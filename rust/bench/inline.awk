# Has the calls of the original's public functions inlined. Left to the compiler, that changes from build to build, and the times with it.

# An attribute belongs to what follows it.
/^ *#\[/ {
    held = held $0 "\n"
    next
}

/^ *pub fn / && held !~ /inline/ {
    held = held "#[inline(always)]\n"
}

{
    printf "%s%s\n", held, $0
    held = ""
}
