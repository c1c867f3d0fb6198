# The page of tools/map. First crates.txt, then the files of the crates, sources first; `sources` says which file tells what a crate is.
#   layer[i], title     the crates in their order, each with its layer's title
#   uses[crate, dep]    listed in crates.txt; named[crate, dep] found in its files
#   carries[crate, dep] a type that the crate declares is made of one of dep's: who uses the former has to list dep too
#   about[crate]        the first sentence of its source

FILENAME == "crates.txt" {
    if (/^## /) title = substr($0, 4)
    if (/^#/ || !/:/) next
    name = $1
    sub(/:.*/, "", name)
    crate[++crates] = name
    listed[name] = 1
    of[name] = title
    for (i = $2 == "staticlib:" ? 3 : 2; i <= NF; i++) {
        uses[name, $i] = 1
        deps[name] = deps[name] " " $i
    }
    next
}

FNR == 1 {
    split(FILENAME, part, "/")
    here = part[2]
    telling = FILENAME ~ /\/src\/(lib|main)\.rt$/
}

telling && /^\/\// {
    line = $0
    sub(/^\/\/ ?/, "", line)
    about[here] = about[here] (about[here] == "" ? "" : " ") line
    next
}

{ telling = 0 }

{
    line = $0
    sub(/(\/\/|--).*/, "", line)
    rest = line
    while (match(rest, /Rattle\.[a-z_]+/)) {
        note(substr(rest, RSTART + 7, RLENGTH - 7))
        rest = substr(rest, RSTART + RLENGTH)
    }
    if (FILENAME ~ /\.rt$/) {
        rest = line
        while (match(rest, /[a-z_]+::/)) {
            note(substr(rest, RSTART, RLENGTH - 2))
            rest = substr(rest, RSTART + RLENGTH)
        }
    }
}

/^use [a-z_]+::[A-Z]/ {
    line = $0
    gsub(/^use |;.*/, "", line)
    split(line, part, "::")
    type_of[FILENAME, part[2]] = part[1]
}

/^pub (struct|enum) / { declaring = 1 }

declaring {
    line = $0
    while (match(line, /[A-Z][A-Za-z]*/)) {
        word = substr(line, RSTART, RLENGTH)
        if ((FILENAME, word) in type_of) carries[here, type_of[FILENAME, word]] = 1
        line = substr(line, RSTART + RLENGTH)
    }
    if (/^}/ || /;$/) declaring = 0
}

function note(name) {
    if (name != here && name in listed) named[here, name] = 1
}

function fail(what) {
    print "tools/map: " what >"/dev/stderr"
    status = 1
}

END {
    for (pair in named) {
        split(pair, part, SUBSEP)
        if (!(pair in uses)) fail("crates.txt: " part[1] " names " part[2] " and does not list it")
    }
    # what is carried by what is carried
    do {
        more = 0
        for (pair in carries) {
            split(pair, part, SUBSEP)
            for (i = 1; i <= crates; i++)
                if ((part[2], crate[i]) in carries && !((part[1], crate[i]) in carries)) {
                    carries[part[1], crate[i]] = 1
                    more = 1
                }
        }
    } while (more)
    for (pair in uses) {
        if (pair in named) continue
        split(pair, part, SUBSEP)
        carried = 0
        for (i = 1; i <= crates; i++)
            if ((part[1], crate[i]) in named && (crate[i], part[2]) in carries) carried = 1
        if (!carried) fail("crates.txt: " part[1] " lists " part[2] ", and neither names it nor uses a type made of its")
    }
    last = ""
    for (i = 1; i <= crates; i++) {
        name = crate[i]
        if (about[name] == "") fail("crates/" name ": its source opens with no sentence")
        if (of[name] != last) {
            last = of[name]
            printf "\n## %s\n\n| Crate | What it is | Its own dependencies |\n|---|---|---|\n", last
        }
        line = about[name]
        if (match(line, /\.( |$)/)) line = substr(line, 1, RSTART)
        printf "| [%s](../crates/%s) | %s |%s |\n", name, name, line, deps[name] == "" ? "" : deps[name]
    }
    exit status
}
