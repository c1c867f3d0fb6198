# The test of tools/named. The first input lists the paths of the repository, the second is the page.
#   exists[path]         a path of the repository
#   place, kind          the last place named in this paragraph or item: a path, and what stands in it (theorem, function or test)
#   declared[path, name] what a file declares; read once, when the file is first named
# A word in backquotes is a name of the last place. Anything else in backquotes that has not the look of a place, such as q,n,k, is text.

NR == FNR { exists[$0] = 1; next }
/^```/ { fenced = !fenced; next }
fenced { next }
/^$/ || /^#/ || /^ *- / { place = "" }
{
    rest = $0
    if (gsub(/`/, "`", rest) % 2)
        miss("a backquote", "it has no other in its line")
    while (match(rest, /`[^`]+`/)) {
        token = substr(rest, RSTART + 1, RLENGTH - 2)
        rest = substr(rest, RSTART + RLENGTH)
        name(token)
    }
}
END {
    printf "docs/PROVED.md: %d names, %d of them missing\n", names, missing
    exit missing > 0
}

function name(token) {
    if (token ~ /^(\.ci|bench|bin|crates|docs|examples|include|tests|tools)\// || token ~ /^(README\.md|crates\.txt)$/) {
        sub(/ .*/, "", token)
        sub(/\/$/, "", token)
        at(token, "test", token)
    } else if (token ~ /^[a-z_]+\/(Laws\/)?[A-Z][A-Za-z]*$/)
        at(spec(token), "theorem", token)
    else if (token ~ /^[a-z_]+\/[a-z0-9_]+$/)
        at(edit(token), "edit", token)
    else if (token ~ /^[a-z_]+(::[a-z_]+)?::[A-Za-z_]+$/)
        function_of(token)
    else if (token ~ /^[A-Za-z_][A-Za-z0-9_-]*$/)
        declared_in(token)
    else if (token ~ /::/ || token ~ /[A-Za-z]\/[A-Za-z]/)
        miss(token, "not the form of a place")
}

function miss(token, why) {
    printf "docs/PROVED.md:%d: %s: %s\n", FNR, token, why
    missing++
}

function at(path, what, token) {
    names++
    place = path
    kind = what
    if (!(path in exists))
        miss(token, "no file " path)
}

# A file of specs/, or else of the theorems that stand in proofs/.
function spec(token,   other) {
    other = token
    sub(/\//, "/specs/", token)
    sub(/\//, "/proofs/", other)
    token = "crates/" token ".antt"
    other = "crates/" other ".antt"
    return !(token in exists) && (other in exists) ? other : token
}

function edit(token) {
    sub(/\//, "/must-fail/", token)
    return "crates/" token ".edit"
}

# crate::function stands in src/lib.rt or, of a program, in src/main.rt; crate::module::function in src/module.rt.
function function_of(token,   parts, count, path) {
    count = split(token, parts, "::")
    path = "crates/" parts[1] "/src/" (count == 3 ? parts[2] : "lib") ".rt"
    if (count == 2 && !(path in exists))
        path = "crates/" parts[1] "/src/main.rt"
    at(path, "function", token)
    if (path in exists)
        check(parts[count])
}

function declared_in(token) {
    names++
    if (place == "")
        miss(token, "no place is named before it")
    else if (place in exists)
        check(token)
}

function check(token) {
    if (!(place in known)) {
        known[place] = 1
        read(place, kind)
    }
    if (!((place, token) in declared))
        miss(token, "not declared in " place)
}

function read(path, what,   line, words) {
    while ((getline line < path) > 0) {
        if (what == "theorem") {
            sub(/--.*/, "", line)
            while (sub(/^ *(pub|unfoldable|abbrev|record|data) /, "", line)) { }
            sub(/^ */, "", line)
            if (line ~ / :( |$)/) {
                split(line, words, " ")
                declared[path, words[1]] = 1
            }
        } else if (what == "function") {
            if (match(line, /(fn|struct|enum|const) [A-Za-z_0-9]+/)) {
                split(substr(line, RSTART, RLENGTH), words, " ")
                declared[path, words[2]] = 1
            }
        } else if (line ~ /^[a-z].*\(/) {
            sub(/\(.*/, "", line)
            sub(/.*[ *]/, "", line)
            declared[path, line] = 1
        }
    }
    close(path)
}
