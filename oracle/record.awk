# Prints a twin of the original's plane writer that also tells a `Recorder`
# what it does, and asks it which modes fit an allowance of bits. The text is
# the writer's own, read at build time; only these lines are new: the twin's
# name, its first parameter, one call before a macroblock's mode is chosen,
# one before it is written and one at the end. The first of these calls does
# nothing without an allowance. The twin is trusted only because its bits are
# then compared with those of the untouched writer.

/^fn encode_inter_plane\($/ {
    inside = 1
    heads++
    print ""
    print "pub(crate) fn recorded_inter_plane("
    print "    recorder: &mut Recorder,"
    next
}

inside && /^            let winner = candidates$/ {
    offers++
    print "            recorder.keep_fitting(&mut candidates, params);"
}

inside && /winner\.t03_position\);$/ {
    choices++
    print "            recorder.choose(w.bits_written(), &winner, &skip_recon);"
}

inside && /^    Ok\(\(\)\)$/ {
    ends++
    print "    recorder.finish(w.bits_written(), &cache);"
}

inside { print }

inside && /^}$/ {
    inside = 0
    closed++
}

function want_one(count, what) {
    if (count != 1) {
        print "record.awk: expected one " what ", found " count + 0 > "/dev/stderr"
        exit 1
    }
}

END {
    want_one(heads, "head of encode_inter_plane")
    want_one(offers, "line that chooses among the candidates")
    want_one(choices, "line that writes the mode")
    want_one(ends, "last answer")
    want_one(closed, "closing brace")
}
