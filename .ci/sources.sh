# What the launcher psac and the gate say of the program's sources. Whoever reads this file sets $root.

# The crate and those that it stands on, each behind the ones below it.
crates_of() {
    awk -F: -v top="$1" '
        function visit(name,    i, n, below) {
            if (!(name in stands_on) || seen[name]++) return
            n = split(stands_on[name], below, " ")
            for (i = 1; i <= n; i++) visit(below[i])
            print name
        }
        /^[a-z]/ { split($1, head, " "); stands_on[head[1]] = $2 }
        END { visit(top) }' "$root/crates.txt"
}

# A sum of all that the program is made from. It is taken before a build begins and kept beside the program once the build
# has succeeded, so that sources which changed meanwhile are never taken for those of the program.
sources_sum() {
    (cd "$root/crates" && { cksum <../crates.txt
        find $(crates_of psac) -name out -prune -o \( -name '*.rt' -o -name '*.antt' \) -exec sha256sum {} +; }) |
        LC_ALL=C sort | sha256sum
}

# keep_sum SUM: says that the program, as it stands, was built from sources of this sum.
keep_sum() {
    printf '%s\n' "$1" >"$root/crates/psac/out/sources.new" && mv "$root/crates/psac/out/sources.new" "$root/crates/psac/out/sources"
}
