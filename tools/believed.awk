# The walk of tools/believed. First the roots, then README.md, then the sources, then the specifications; it prints the page's sections.
#
# Of a file of specifications a paragraph, the lines up to a blank one, is an item: a definition or a theorem, with the comment above it.
# Its name stands in its first line; a constructor's item is its data type. An item in a section, `module _ (..) where`, has the section's
# head, whose words count as its own. Of a theorem the statement counts, of a definition the whole text; of a definition that a theorem
# settles the theorem's statement. Of a source an item is a function's contract, or a type or a number that a contract names.
#   items[file], item[file, i]      the items of a file, in their order; key = file SUBSEP name
#   text[key], uses[key], head[key] what is printed of it, the words that it uses, and its section's head
#   bound[key]                      the words that it binds itself
#   meaning[key]                    the number of its entry in the glossary at the file's head; entry_text[file, number] that entry
#   from[file, word]                the key that an imported word stands for; kit[file, word] the toolchain's name

# The words of a line of antt or of a contract, without fields and without a clause's own name.
function words(line,    i, n, w, out) {
    gsub(/[(){},;\[\]|=]/, " ", line)
    gsub(/\302\253|\302\273/, " ", line)
    sub(/^ *(requires|ensures)\*? [a-z_0-9]+  /, " ", line)
    gsub(/\.[a-z_0-9][a-z_0-9\047-]*/, " ", line)
    n = split(line, w, /[ \t]+/)
    out = " "
    for (i = 1; i <= n; i++)
        if (w[i] != "") out = out w[i] " "
    return out
}

# The words that a line binds: (a b : ..), {a : ..}, let a =, λ a b., and on a clause's left side.
function binds(line,    out, rest, group) {
    out = " "
    rest = line
    while (match(rest, /[({][^(){}:]+ : /)) {
        group = substr(rest, RSTART + 1, RLENGTH - 4)
        out = out group " "
        rest = substr(rest, RSTART + RLENGTH)
    }
    rest = line
    while (match(rest, /let [^ =:(]+ (=|:)/)) {
        group = substr(rest, RSTART + 4, RLENGTH - 6)
        out = out group " "
        rest = substr(rest, RSTART + RLENGTH)
    }
    rest = line
    while (match(rest, /\316\273 [^.(]+\. /)) {
        group = substr(rest, RSTART + 3, RLENGTH - 5)
        out = out group " "
        rest = substr(rest, RSTART + RLENGTH)
    }
    return out
}

# Notes what a `use` line brings into the file.
function imports(file, line,    crate, module, folder, names, n, i, part, own, type) {
    sub(/;.*/, "", line)
    sub(/^(ghost )?use /, "", line)
    names = line
    if (names ~ /\{/) {
        sub(/.*\{/, "", names)
        sub(/\}.*/, "", names)
    } else
        names = ""
    module = line
    sub(/\.?\{.*/, "", module)
    crate = module
    sub(/^Rattle\./, "", crate)
    sub(/\..*/, "", crate)
    if (module ~ /^Rattle\./ && crate in ours) {
        folder = module ~ /^Rattle\.[a-z_]+\.proofs\./ ? "/proofs/" : "/specs/"
        sub(/^Rattle\.[a-z_]+\.(specs|proofs)\./, "", module)
        if (module ~ /^declared\./) {
            type = module
            sub(/^declared\./, "", type)
            own = type
            sub(/[. ].*/, "", type)
            if (own ~ / as /) {
                sub(/.* as /, "", own)
                variants[file, own] = crate SUBSEP type
            }
            n = split(names, part, /, */)
            for (i = 1; i <= n; i++) {
                own = part[i]
                sub(/.* as /, "", own)
                declared[file, own] = crate SUBSEP type
            }
            return
        }
        gsub(/\./, "/", module)
        module = "crates/" crate folder module ".antt"
    } else if (module ~ /::/) {
        # a type of another crate, in a source
        n = split(module, part, "::")
        declared[file, part[n]] = part[1] SUBSEP part[n]
        return
    } else {
        n = split(names, part, /, */)
        for (i = 1; i <= n; i++) {
            own = part[i]
            sub(/.* as /, "", own)
            sub(/ as .*/, "", part[i])
            type = own
            gsub(/\342\227\214/, "", type)
            kit[file, type == "" ? own : type] = module SUBSEP part[i]
        }
        return
    }
    n = split(names, part, /, */)
    for (i = 1; i <= n; i++) {
        own = part[i]
        sub(/.* as /, "", own)
        sub(/ as .*/, "", part[i])
        gsub(/\342\227\214/, "", own)
        from[file, own] = module SUBSEP part[i]
    }
}

function add_item(file, name,    key) {
    key = file SUBSEP name
    if (!(key in text)) {
        items[file]++
        item[file, items[file]] = name
    }
    return key
}

# The name that a first line gives: `abbrev pub f : ..`, `pub record R (..) : ..`.
function named(line,    w) {
    sub(/^ */, "", line)
    while (sub(/^(abbrev|unfoldable|pub|record|data) /, "", line)) { }
    split(line, w, /[ \t]/)
    return w[1]
}

# A paragraph of a file of specifications, its lines in para[1..count].
function paragraph(file,    i, start, depth, name, key, line, statement, comment, theorem, data, short) {
    if (count == 0) return
    start = 1
    # the file's head: its sentence and its glossary
    if (!(file in intro)) {
        glossary(file)
        return
    }
    comment = ""
    # a section's head, of one line or more; its first item may follow
    while (start <= count) {
        line = para[start]
        match(line, /^ */)
        depth = RLENGTH
        if (line ~ /^ *module /) {
            leave(depth)
            level++
            inner[level] = depth + 2
            outer[level] = ""
            while (start <= count) {
                outer[level] = outer[level] para[start] "\n"
                if (para[start++] ~ / where$/) break
            }
            comment = ""
        } else if (line ~ /^ *--/) {
            comment = comment line "\n"
            start++
        } else if (line ~ /^ *infix/) {
            comment = comment line "\n"
            start++
        } else if (line ~ /^ *open /) {
            start++
        } else
            break
    }
    if (start > count) return
    leave(depth)
    if (depth != (level ? inner[level] : 0)) {
        # further lines of a record or of a data type; else of a proof
        if (last_data != "")
            for (i = start; i <= count; i++) {
                text[last_data] = text[last_data] para[i] "\n"
                uses[last_data] = uses[last_data] words(para[i])
            }
        return
    }
    last_data = ""
    name = named(line)
    if (line !~ /^ *(abbrev |unfoldable |pub )*[^ ]+( \{[^}]*\})* :( |$)/ && line !~ /^ *(pub )?(record|data) /) {
        print file ": no item begins with: " line >"/dev/stderr"
        status = 1
        return
    }
    key = add_item(file, name)
    short = name
    gsub(/\342\227\214/, "", short)
    if (short != name) alias[file, short] = key
    theorem = key in root || key in settles
    data = line ~ /^ *(pub )?(record|data) /
    if (data) last_data = key
    if (line ~ /^ *(abbrev |unfoldable )?pub /) exported[key] = 1
    above[key] = comment
    statement = 1
    for (i = start; i <= count; i++) {
        line = para[i]
        sub(/^ */, "", line)
        if (theorem && i > start && (index(line, name " ") == 1 || line ~ /^unfolding /)) statement = 0
        if (line ~ /^unfolding /) {
            # its names may go on in deeper lines
            match(para[i], /^ */)
            depth = RLENGTH
            while (i < count && match(para[i + 1], /^ */) && RLENGTH > depth) i++
            continue
        }
        if (!statement) continue
        text[key] = text[key] para[i] "\n"
        if (line ~ /^--/) continue
        uses[key] = uses[key] words(para[i])
        bound[key] = bound[key] binds(para[i])
        if (data && para[i] ~ /^ *pub [^ ]+ : / && i > start) bound[key] = bound[key] " " named(para[i]) " "
        if (i > start && index(line, name " ") == 1) {
            sub(/ =( .*)?$/, "", line)
            sub(/^[^ ]* /, "", line)
            bound[key] = bound[key] words(line)
        }
        if (data && para[start] !~ /record / && para[i] ~ /^  [a-z]/ && i > start) {
            sub(/ .*/, "", line)
            owner[file, line] = key
        }
    }
    for (i = 1; i <= level; i++) {
        head[key] = head[key] outer[i]
        uses[key] = uses[key] words(outer[i])
        bound[key] = bound[key] binds(outer[i])
    }
}

# Leaves the sections that end at a line so far to the left.
function leave(depth) {
    while (level && depth < inner[level]) level--
}

# The head of a file of specifications: a sentence, then entries `--   name, name == meaning`, or `name == ..; name == ..`.
function glossary(file,    i, line, n, part, m, each, j, w) {
    intro[file] = ""
    entries = 0
    for (i = 1; i <= count; i++) {
        line = para[i]
        if (line !~ /^--/) {
            if (line ~ /^use /) imports(file, line)
            continue
        }
        if (line ~ /^-- Assumes nothing/) continue
        if (line ~ /^--   [^ ]/ && line ~ / == /) {
            entries++
            entry_text[file, entries] = ""
        } else if (line ~ /^-- [^ ]/ && entries) {
            # a sentence between or after the entries
            entries++
            entry_text[file, entries] = ""
        }
        if (!entries) {
            sub(/^-- ?/, "", line)
            intro[file] = intro[file] line "\n"
            continue
        }
        entry_text[file, entries] = entry_text[file, entries] line "\n"
    }
    for (i = 1; i <= entries; i++) {
        line = entry_text[file, i]
        gsub(/\n/, " ", line)
        gsub(/--/, " ", line)
        n = split(line, part, /;/)
        for (m = 1; m <= n; m++) {
            if (part[m] !~ / == /) continue
            sub(/ == .*/, "", part[m])
            each[0] = split(part[m], each, /, /)
            for (j = 1; j in each; j++) {
                split(each[j], w, " ")
                sub(/^\([^)]*\)$/, "", w[1])
                if (w[1] != "" && !((file, w[1]) in meaning)) meaning[file, w[1]] = i
            }
            for (j in each) delete each[j]
        }
    }
}

BEGIN {
    sources = split(list, source, " ")
    for (i = 1; i <= sources; i++) {
        crate = source[i]
        sub(/^crates\//, "", crate)
        sub(/\/.*/, "", crate)
        ours[crate] = 1
    }
}

FNR == 1 {
    if (last != "" && last ~ /\.antt$/) paragraph(last)
    last = FILENAME
    count = 0
    level = 0
    last_data = ""
    in_calls = 0
    note = ""
    within = ""
}

FILENAME ~ /\.roots$/ {
    if ($0 ~ /^#/ || NF == 0) next
    if ($1 == "section") {
        line = $0
        sub(/^section /, "", line)
        title[++sections] = line
        sub(/:.*/, "", title[sections])
        sub(/.*: /, "", line)
        crates_of[sections] = line
        n = split(line, w, " ")
        for (i = 1; i <= n; i++) placed[w[i]] = 1
    } else if ($1 == "headline" && NF > 3) {
        headline[++headlines] = $2 SUBSEP $3
        told_as[headlines] = substr($0, index($0, " " $3 " ") + length($3) + 2)
        front[$2, $3] = 1
        root[$2, $3] = 1
    } else if ($1 == "root" && NF == 3) root[$2, $3] = 1
    else if ($1 == "settled" && NF == 6) {
        settled[$2, $3] = $5 SUBSEP $6
        settles[$5, $6] = 1
    } else if ($1 == "rows" && NF == 4) rows[$2, $3] = $4
    else if ($1 == "otherwise" && NF == 3) otherwise[$2, $3] = 1
    else {
        print "tools/believed.roots: not understood: " $0 >"/dev/stderr"
        status = 1
    }
    next
}

# The public calls: the column "Rattle" of the table under "The calls".
FILENAME == "README.md" {
    if (/^## /) in_calls = $0 == "## The calls"
    if (in_calls && /^\|/) {
        n = split($0, cell, /\|/)
        for (i = 1; i <= n; i++)
            if (cell[i] ~ /^ *Rattle *$/) column = i
        rest = column ? cell[column] : ""
        while (match(rest, /`[a-z_]+::[a-z_]+`/)) {
            call[++calls] = substr(rest, RSTART + 1, RLENGTH - 2)
            rest = substr(rest, RSTART + RLENGTH)
        }
    }
    next
}

# The callers of the calls: the contract of each, and what its body calls.
FILENAME ~ /crates\/clients\/.*\.rt$/ {
    line = $0
    if (/^pub fn /) said = ""
    if (/^    (ensures|requires|    )/) said = said clause($0)
    while (match(line, /[a-z_]+(::|\.)[a-z_]+\(/)) {
        name = substr(line, RSTART, RLENGTH - 1)
        sub(/^.*(::|\.)/, "", name)
        called[name] = called[name] SUBSEP said
        line = substr(line, RSTART + RLENGTH)
    }
    next
}

FILENAME ~ /\.rt$/ {
    if (/^(ghost )?use /) {
        imports(FILENAME, $0)
        next
    }
    if (/^ *\/\// || /^ *#\[/) {
        note = note $0 "\n"
        next
    }
    if (/^impl /) within = $0 "\n"
    if (/^}/) within = ""
    line = $0
    if (match(line, /^ *(pub )?(extern "C" )?fn [a-z_0-9]+/)) {
        name = substr(line, RSTART, RLENGTH)
        sub(/.* /, "", name)
        key = add_item(FILENAME, name)
        kind[key] = "function"
        text[key] = note
        if (note ~ /no_mangle/ && FILENAME ~ /crates\/pandrwyg_c\//) call[++calls] = "pandrwyg_c::" name
        head[key] = within
        open = "function"
        ensuring = 0
    } else if (match(line, /^(pub )?(struct|enum|const) [A-Za-z_0-9]+/)) {
        name = substr(line, RSTART, RLENGTH)
        sub(/.* /, "", name)
        key = add_item(FILENAME, name)
        kind[key] = "type"
        text[key] = note
        crate = FILENAME
        sub(/^crates\//, "", crate)
        sub(/\/.*/, "", crate)
        type_of[crate, name] = key
        open = "type"
    }
    note = ""
    if (open == "function" && line ~ /^ *\{$/) open = ""
    if (open != "") {
        text[key] = text[key] $0 "\n"
        if (line ~ /^ *requires /) asks[key] = 1
        if (line ~ /^ *ensures /) ensuring = 1
        if (ensuring) contract[key] = contract[key] clause(line)
        gsub(/[:&*<>]/, " ", line)
        uses[key] = uses[key] words(line)
        # a path, numbering::Index
        line = $0
        while (match(line, /[a-z_]+::[A-Z][A-Za-z_]*/)) {
            split(substr(line, RSTART, RLENGTH), w, "::")
            declared[FILENAME, w[2]] = w[1] SUBSEP w[2]
            line = substr(line, RSTART + RLENGTH)
        }
    }
    if (open == "type" && ($0 ~ /^\}/ || $0 ~ /;$/)) open = ""
    next
}

# The order of a crate's files.
FILENAME ~ /\/specs\/Lib\.antt$/ {
    crate = FILENAME
    sub(/^crates\//, "", crate)
    sub(/\/.*/, "", crate)
    if (/^pub mod [A-Z]/) {
        ordered[crate]++
        order[crate, ordered[crate]] = "crates/" crate "/specs/" $3 ".antt"
        known_file["crates/" crate "/specs/" $3 ".antt"] = 1
    }
    next
}

/^use / { imports(FILENAME, $0) }

/^$/ {
    paragraph(FILENAME)
    count = 0
    next
}

{ para[++count] = $0 }

# The key that a word of a file stands for, "" where it is none of ours.
function stands_for(file, word,    p, type) {
    if ((file, word) in from) return from[file, word]
    if ((file, word) in declared) type = declared[file, word]
    else {
        p = word
        sub(/\..*/, "", p)
        if (p != word && (file, p) in variants) type = variants[file, p]
    }
    if (type != "") return type in type_of ? type_of[type] : ""
    if ((file, word) in owner) return owner[file, word]
    if ((file, word) in alias) return alias[file, word]
    if ((file, word) in text) return file SUBSEP word
    return ""
}

# Reaches an item once, or the theorem that settles it.
function reach(key) {
    if (key in owner) key = owner[key]
    if (key in settled) {
        spared[key] = 1
        key = settled[key]
    }
    if (key in reached || !(key in text)) return
    reached[key] = 1
    queue[++tail] = key
}

# A line of a contract without its blanks; a method's caller has the receiver by that name.
function clause(line) {
    gsub(/[ \t]/, "", line)
    gsub(/self/, "receiver", line)
    return line
}

function fail(what) {
    print "tools/believed: " what >"/dev/stderr"
    status = 1
}

# A place as docs/PROVED.md writes it.
function place(file,    out) {
    out = file
    sub(/^crates\//, "", out)
    sub(/\/(specs|proofs)\//, "/", out)
    sub(/\/src\/.*/, "", out)
    sub(/\.antt$/, "", out)
    return out
}

# Prints an item inside a block: the section's head where it is another than the last one's, what the glossary says, the comment above
# it, the text.
function show(file, name,    key, e) {
    key = file SUBSEP name
    if (shown++) print ""
    if (head[key] != last_head) printf "%s", head[key]
    last_head = head[key]
    if (key in meaning) {
        e = meaning[key]
        if (!((file, e) in told)) printf "%s", entry_text[file, e]
        told[file, e] = 1
    } else if (key in exported && above[key] == "")
        fail("no sentence tells what this is: " file " " name)
    printf "%s%s", above[key], text[key]
    sum += gsub(/\n/, "\n", text[key])
}

# Prints the items of a file that are reached, and not at the front, of one kind.
function show_file(file, which,    i, key, any) {
    any = 0
    for (i = 1; i <= items[file]; i++) {
        key = file SUBSEP item[file, i]
        if (!(key in reached) || key in front || kind[key] != which) continue
        if (!any) {
            any = 1
            if (file ~ /\.antt$/) printf "\n### `%s`\n\n%s\n```\n", place(file), intro[file]
            else printf "\n### `%s`: %s\n\n```\n", place(file), which == "type" ? "types" : "contracts"
            shown = 0
            last_head = ""
        }
        show(file, item[file, i])
    }
    if (any) print "```"
}

END {
    if (last ~ /\.antt$/) paragraph(last)
    for (key in settles)
        if (!(key in text)) fail("no such theorem: " key)
    for (key in root) {
        if (!(key in text)) fail("no such root: " key)
        reached[key] = 1
        queue[++tail] = key
    }
    for (at = 1; at <= tail; at++) {
        split(queue[at], p, SUBSEP)
        n = split(uses[queue[at]], w, / +/)
        for (i = 1; i <= n; i++) {
            if (w[i] == "" || w[i] == p[2] || index(bound[queue[at]] " ", " " w[i] " ")) continue
            key = stands_for(p[1], w[i])
            if (key != "") reach(key)
            else if ((p[1], w[i]) in kit) named_kit[kit[p[1], w[i]]] = 1
        }
    }

    # the public calls
    for (i = 1; i <= calls; i++) {
        split(call[i], w, "::")
        file = "crates/" w[1] "/src/lib.rt"
        if (!((file, w[2]) in text)) file = "crates/" w[1] "/src/main.rt"
        if (!((file, w[2]) in text)) fail("no such call: " call[i])
        if (!((file, w[2]) in root)) fail("a public call is no root: " call[i])
        if ((file, w[2]) in asks) fail("a public call has a requires: " call[i])
        if (file !~ /lib\.rt$/) continue
        if (!(w[2] in called)) fail("a public call has no caller in crates/clients: " call[i])
        else if (!((file, w[2]) in otherwise) && !index(called[w[2]] SUBSEP, SUBSEP contract[file, w[2]] SUBSEP))
            fail("its caller in crates/clients does not repeat the contract: " call[i])
    }
    if (calls < 10) fail("the calls of README.md are not found")

    # the tables
    for (key in rows) {
        n = gsub(/\342\207\222/, "\342\207\222", text[key])
        split(key, p, SUBSEP)
        if (n != rows[key]) fail(p[1] " " p[2] " has " n " rows; recorded are " rows[key])
    }

    print "## The headline theorems"
    for (i = 1; i <= headlines; i++) {
        split(headline[i], p, SUBSEP)
        printf "\n### %s\n\n`%s`, in `%s`\n\n```\n", told_as[i], p[2], place(p[1])
        shown = 0
        last_head = ""
        show(p[1], p[2])
        print "```"
    }
    for (i = 1; i <= sections; i++) {
        printf "\n## %s\n", title[i]
        n = split(crates_of[i], c, " ")
        for (j = 1; j <= n; j++) {
            for (f = 1; f <= sources; f++)
                if (index(source[f], "crates/" c[j] "/src/") == 1) show_file(source[f], "type")
            for (f = 1; f <= ordered[c[j]]; f++) show_file(order[c[j], f], "")
            for (f = 1; f <= sources; f++)
                if (source[f] ~ "^crates/" c[j] "/(specs|proofs)/" && !(source[f] in known_file)) show_file(source[f], "")
            for (f = 1; f <= sources; f++)
                if (index(source[f], "crates/" c[j] "/src/") == 1) show_file(source[f], "function")
        }
    }
    for (key in reached) {
        split(key, p, SUBSEP)
        split(p[1], w, "/")
        if (!(w[2] in placed)) fail("no section has the crate " w[2])
    }

    print "\n## Settled by a theorem\n"
    print "The text of these definitions need not be believed: the theorem, which stands above, says which value each has.\n"
    n = 0
    for (key in spared) {
        split(key, p, SUBSEP)
        split(settled[key], w, SUBSEP)
        line_of[++n] = "- `" place(p[1]) "` `" p[2] "`, by `" place(w[1]) "` `" w[2] "`"
    }
    sort(line_of, n)
    for (i = 1; i <= n; i++) print line_of[i]

    print "\n## The toolchain's own definitions\n"
    print "These are used by name, as the toolchain has them; by module:\n"
    n = 0
    for (key in named_kit) {
        split(key, p, SUBSEP)
        line_of[++n] = p[1] " " p[2]
    }
    sort(line_of, n)
    module = ""
    for (i = 1; i <= n; i++) {
        split(line_of[i], w, " ")
        if (w[1] != module) printf "%s- `%s`: `%s`", module == "" ? "" : "\n", w[1], w[2]
        else printf ", `%s`", w[2]
        module = w[1]
    }
    printf "\n\n%d lines in all.\n", sum
    exit status
}

function sort(list, n,    i, j, t) {
    for (i = 2; i <= n; i++) {
        t = list[i]
        for (j = i - 1; j >= 1 && list[j] > t; j--) list[j + 1] = list[j]
        list[j + 1] = t
    }
}
