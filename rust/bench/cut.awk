# Cuts the pointer tables and the counters' notes out of the original's mmu.rs.

# Inside something that goes, up to the brace that closes it.
ending != "" {
    if ($0 == ending) ending = ""
    next
}

# An attribute belongs to what follows it, and goes or stays with that.
/^ *#\[/ {
    held = held $0 "\n"
    next
}

/^(struct|impl) (Load|Store)FastEntry/ {
    ending = "}"
}
/^    (pub )?fn (load|store)_fast_(lookup|fill)\(/ {
    ending = "    }"
}
ending != "" || /FastEntry/ || /(load|store)_fast/ || /perf::|::perf/ {
    held = ""
    next
}

# Where something went, one empty line is left.
$0 == "" && last == "" {
    next
}
{
    printf "%s%s\n", held, $0
    held = ""
    last = $0
}
