# citations.awk FILES.. DOCUMENT: holds what the tables of docs/CLAIMS.md cite to the files of crates/, and prints a line "ok: .." or
# "FAILED: .." for each citation. How a table cites, in its last column, in parts that end with "; ", ": " or ". ":
#
#   contract of `f`, `T::g`                  functions with a contract, of the crates that the section's head names (of an impl the type behind `for`);
#   contract of `f` in crates/c src/f.rt     of a file, or of a crate, where that stands behind them
#   contract, their contracts                the same of all names in the first column
#   `a`, `b` in specs/F.antt                 definitions; "crates/c " in front, if it is not a crate of the head that has the file
#   proofs/F.antt `s`, `t`                   theorems, or definitions with specs/, up to the next file
#   `a`                                      a definition or a theorem of any crate of the head
#
# Under "field of `R`" a bare name is a field of the record R, and every field has to be there. Under "definitions" the form is
# "crate Module `a`, `b`, Module `c`". Where wrong programs are told, a name is that of a must-fail edit, and a crate in round
# brackets is that of the edits before it. A theorem that is cited must be cited by crates/claims too, and the other way round.

function tell(good, text) {
    if (!(text in told))
        print (good ? "ok: " : "FAILED: ") text
    told[text] = 1
}

# The file that declares the name: this file, or one below this folder.
function declaring(place, name,    file) {
    if ((place, name) in declares)
        return place
    for (file in files)
        if (index(file, place "/") == 1 && (file, name) in declares)
            return file
    return ""
}

function cite(file, name) {
    if (file ~ /^crates\/[a-z0-9_]+\/proofs\//)
        if (!((file, name) in theorems)) {
            theorems[file, name] = 1
            order[++cited] = file SUBSEP name
        }
    tell(1, "`" name "` is in " file)
}

function cite_in(place, name,    file) {
    file = declaring(place, name)
    if (file != "")
        cite(file, name)
    else
        tell(0, "`" name "` is in " place)
}

# A name beside no file.
function cite_bare(name,    i, file) {
    if (record != "") {
        tell((record, name) in field, "`" name "` is a field of `" record "`")
        listed[record, name] = 1
        return
    }
    for (i = 1; i <= heads; i++) {
        file = declaring("crates/" head[i] "/specs", name)
        if (file == "")
            file = declaring("crates/" head[i] "/proofs", name)
        if (file != "") {
            cite(file, name)
            return
        }
    }
    tell(0, "`" name "` is in a crate of \"" section "\"")
}

# A function with a contract, in a file or a crate, or in one of the head's crates.
function cite_contract(place, name,    i) {
    for (i = 1; place == "" && i <= heads; i++)
        if (("crates/" head[i], name) in contract)
            place = "crates/" head[i]
    tell((place, name) in contract, "`" name "` in " (place == "" ? "\"" section "\"" : place) " has a contract")
}

# The names that stood before their place, or have none.
function settle(place,    i) {
    for (i = 1; i <= waiting; i++)
        if (by_contract)
            cite_contract(place, waits[i])
        else if (place != "")
            cite_in(place, waits[i])
        else
            cite_bare(waits[i])
    waiting = by_contract = 0
}

# The path of "crates/c specs/F.antt", of "specs/F.antt" and of "crates/c".
function path_of(text,    i, path) {
    path = text
    if (sub(/ /, "/", path) || path ~ /^crates/)
        return path
    for (i = 1; i <= heads; i++)
        if (("crates/" head[i] "/" path) in files)
            return "crates/" head[i] "/" path
    return "crates/" head[1] "/" path
}

function cite_part(text, first,    place, before, token) {
    place = ""
    waiting = by_contract = 0
    while (match(text, /`[^`]*`|crates\/[a-z0-9_]+( (specs|proofs|src)\/[A-Za-z0-9_\/]+\.(antt|rt))?|(specs|proofs|src)\/[A-Za-z0-9_\/]+\.(antt|rt)|[Cc]ontracts?( of)?/)) {
        before = substr(text, 1, RSTART - 1)
        token = substr(text, RSTART, RLENGTH)
        text = substr(text, RSTART + RLENGTH)
        if (token ~ /^`/) {
            gsub(/`/, "", token)
            if (place == "")
                waits[++waiting] = token
            else
                cite_in(place, token)
        } else if (token ~ / of$/) {
            settle("")
            place = ""
            by_contract = 1
        } else if (token ~ /ontract/) {
            if (first !~ /`/)
                tell(0, "line " FNR " says whose contract")
            for (; match(first, /`[^`]*`/); first = substr(first, RSTART + RLENGTH))
                cite_contract("", substr(first, RSTART + 1, RLENGTH - 2))
        } else if (waiting && before ~ / in $/)
            settle(path_of(token))
        else {
            settle("")
            place = path_of(token)
            if (!(place in files || place in folders))
                tell(0, place " is there")
        }
    }
    settle("")
}

function cite_definitions(text,    crate, place, token) {
    crate = place = ""
    gsub(/"[^"]*"/, "", text)
    while (match(text, /`[^`]*`|[a-z_0-9]+|[A-Z][A-Za-z0-9]+:?/)) {
        token = substr(text, RSTART, RLENGTH)
        text = substr(text, RSTART + RLENGTH)
        if (token ~ /^`/) {
            gsub(/`/, "", token)
            cite_in(place, token)
        } else if (("crates/" token) in folders) {
            crate = "crates/" token
            place = ""
        } else if (token ~ /^[A-Z].*[^:]$/ && crate != "") {
            place = crate "/specs/" token ".antt"
            tell(place in files, place " is there")
        }
    }
}

function cite_edits(text,    token, crate, names, count, i) {
    count = 0
    while (match(text, /`[a-z0-9_]+`|\([a-z_0-9]+\)|[.;:] /)) {
        token = substr(text, RSTART + 1, RLENGTH - 2)
        crate = substr(text, RSTART, 1) == "(" ? "crates/" token : ""
        if (substr(text, RSTART, 1) == "`") {
            if (!(("crates/" token) in folders))
                names[++count] = token
        } else if (crate == "" || crate in folders) {
            for (i = 1; i <= count; i++)
                tell((crate, names[i]) in edits, "the edit `" names[i] "` is in " (crate == "" ? "a crate" : crate))
            count = 0
        }
        text = substr(text, RSTART + RLENGTH)
    }
}

FNR == 1 {
    files[FILENAME] = 1
    kind = FILENAME
    sub(/^.*\./, "", kind)
    split(FILENAME, names, "/")
    here = names[1] "/" names[2]
    folders[here] = 1
    module = FILENAME
    gsub(/^.*\/|\.[a-z]*$/, "", module)
    if (kind == "edit")
        edits[here, module] = edits["", module] = 1
    type = of_record = of_function = ""
}
kind == "edit" { next }

# A declaration at the margin, in a module or in a record.
kind == "antt" && /^ *((abbrev|unfoldable) )?pub / {
    name = $0
    sub(/^ *((abbrev|unfoldable) )?pub ((record|data) )?/, "", name)
    sub(/[ (].*/, "", name)
    declares[FILENAME, name] = 1
    if ($0 !~ /^ /)
        of_record = $0 ~ /^pub record / ? name : ""
    else if (of_record != "")
        field[of_record, name] = 1
}
# What crates/claims cites: "field = Alias.theorem;".
here == "crates/claims" && /^use Rattle\.[a-z0-9_]+\.proofs\.[A-Za-z0-9.]+ as / {
    split($2, names, /\.proofs\./)
    sub(/^Rattle\./, "", names[1])
    gsub(/\./, "/", names[2])
    alias[FILENAME, $4] = "crates/" names[1] "/proofs/" names[2] ".antt"
}
here == "crates/claims" && /^ +[^ ]+ = [A-Z][A-Za-z0-9]*\.[^ ]+;$/ {
    split($3, names, /[.;]/)
    again[alias[FILENAME, names[1]], names[2]] = 1
}
kind == "antt" { next }

# A function, and whether a contract stands between its head and its body.
kind == "rt" && /^impl / {
    type = $2
    if (match($0, / for [A-Za-z0-9_]+/))
        type = substr($0, RSTART + 5, RLENGTH - 5)
}
kind == "rt" && /^}/ { type = given = "" }
# A member that an impl gives its trait is the contract of the impl's functions.
kind == "rt" && type != "" && /^ +ghost [a-z_]+ = / { given = 1 }
kind == "rt" && /^ *(pub(\([a-z]+\))? )?(extern "C" )?fn / {
    of_function = $0
    sub(/^.*fn /, "", of_function)
    sub(/[(<].*/, "", of_function)
    if (given)
        contract[FILENAME, type "::" of_function] = contract[here, type "::" of_function] = 1
}
kind == "rt" && of_function != "" && /^ *ensures / {
    prefix = type != "" ? type : module
    contract[FILENAME, of_function] = contract[here, of_function] = 1
    contract[FILENAME, prefix "::" of_function] = contract[here, prefix "::" of_function] = 1
}
kind == "rt" && /^ *[{]/ { of_function = "" }
kind == "rt" { next }

# The document.
/^## / {
    section = substr($0, 4)
    heads = 0
    head[1] = "?"
    for (text = section; match(text, /`[a-z_0-9\/]+`/); text = substr(text, RSTART + RLENGTH)) {
        name = substr(text, RSTART + 1, RLENGTH - 2)
        sub(/^crates\//, "", name)
        if (("crates/" name) in folders)
            head[++heads] = name
        else
            tell(0, "crates/" name " is there")
    }
}
section ~ /^Wrong programs/ { wrong = wrong $0 " " }
!/^\|/ {
    under = ""
    next
}
/^\|---/ { next }
split($0, cells, / *\| */) != 4 {
    tell(0, "line " FNR " has two columns")
    next
}
under == "" {
    under = cells[3]
    record = ""
    if (match(under, /`[^`]*`/))
        record = substr(under, RSTART + 1, RLENGTH - 2)
    next
}
under == "definitions" {
    cite_definitions(cells[3])
    next
}
{
    count = split(cells[3], parts, /[;:.] /)
    for (i = 1; i <= count; i++)
        cite_part(parts[i], cells[2])
}

END {
    cite_edits(wrong)
    for (i = 1; i <= cited; i++) {
        split(order[i], names, SUBSEP)
        tell(order[i] in again, "crates/claims cites `" names[2] "` of " names[1])
    }
    for (pair in again)
        if (!(pair in theorems)) {
            split(pair, names, SUBSEP)
            tell(0, "what crates/claims cites is claimed: `" names[2] "` of " names[1])
        }
    for (pair in listed) {
        split(pair, names, SUBSEP)
        tables[names[1]] = 1
    }
    for (pair in field) {
        split(pair, names, SUBSEP)
        if (names[1] in tables && !(pair in listed))
            tell(0, "the field `" names[2] "` of `" names[1] "` is claimed")
    }
}
