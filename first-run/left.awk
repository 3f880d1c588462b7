# Prints how many minutes a first run has left, rounded up.
#
#     awk -v lanes=N -f left.awk NEEDED SECONDS STATE
#
# NEEDED: a line for each crate, in the order in which they begin: its name, and those that it waits for. SECONDS: a name, and what it
# took in some other run; lines with # say something else. STATE: a name, `done` or `running`, and its seconds so far.
#
# The other run's times are stretched by what the crates that are done took, all together. Then the rest is played: a crate begins once
# those below it are done and a lane is free. One that has no time of its own takes the mean.
/^#/ { next }
FILENAME == ARGV[1] { names[++count] = $1; for (i = 2; i <= NF; i++) below[$1] = below[$1] " " $i }
FILENAME == ARGV[2] { took[$1] = $2; sum += $2; known++ }
FILENAME == ARGV[3] { state[$1] = $2; so_far[$1] = $3 }

function is_ready(name,    parts, n, i) {
    n = split(below[name], parts, " ")
    for (i = 1; i <= n; i++) if (state[parts[i]] != "done") return 0
    return 1
}

END {
    for (i = 1; i <= count; i++) if (!(names[i] in took)) took[names[i]] = known ? sum / known : 60
    for (i = 1; i <= count; i++)
        if (state[names[i]] == "done") { now += so_far[names[i]]; other += took[names[i]] }
    stretch = now && other ? now / other : 1
    for (i = 1; i <= count; i++) {
        name = names[i]
        rest[name] = took[name] * stretch
        if (state[name] == "running") {
            running++
            rest[name] = rest[name] > so_far[name] ? rest[name] - so_far[name] : 0
        }
    }
    while (1) {
        for (i = 1; i <= count && running < lanes; i++)
            if (state[names[i]] == "" && is_ready(names[i])) { state[names[i]] = "running"; running++ }
        next_end = -1
        for (i = 1; i <= count; i++)
            if (state[names[i]] == "running" && (next_end < 0 || rest[names[i]] < next_end)) next_end = rest[names[i]]
        if (next_end < 0) break
        left += next_end
        for (i = 1; i <= count; i++)
            if (state[names[i]] == "running") {
                rest[names[i]] -= next_end
                if (rest[names[i]] <= 0) { state[names[i]] = "done"; running-- }
            }
    }
    minutes = int(left / 60)
    print minutes + (minutes * 60 < left)
}
