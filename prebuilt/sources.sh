# What the program is made from, for the scripts beside this file. They run at the top of the repository.

# Prints the line of crates.txt of each crate that the program is made from, r2_main's first.
crate_lines() {
    awk '
        /^[a-z]/ { name = $1; sub(":", "", name); line[name] = $0 }
        END {
            found[1] = "r2_main"
            count = is_found["r2_main"] = 1
            for (at = 1; at <= count; at++) {
                print line[found[at]]
                words = split(line[found[at]], word)
                for (i = 2; i <= words; i++)
                    if (word[i] in line && !is_found[word[i]]++)
                        found[++count] = word[i]
            }
        }' crates.txt
}

# Prints the folders with their sources.
source_folders() {
    crate_lines | sed 's|:.*|/src|; s|^|crates/|'
}

# Prints a checksum of those lines and of all files in those folders.
sum_of_sources() {
    local folders
    mapfile -t folders < <(source_folders)
    {
        crate_lines
        find "${folders[@]}" -type f -print0 | LC_ALL=C sort -z | xargs -0 sha256sum
    } | sha256sum | cut -d ' ' -f 1
}

# Whether a program stands in r2_main's out/ than which no source is newer: `rt ci` or `./r2` built it of these sources.
is_built() {
    local folders
    mapfile -t folders < <(source_folders)
    [ -x "$built" ] && [ -z "$(find "${folders[@]}" -newer "$built" -print -quit)" ]
}

built=$PWD/crates/r2_main/out/r2_main
prebuilt=$PWD/prebuilt/r2-x86_64-linux
