# public.awk FILES..: "CRATE FUNCTION KIND ASKS" for each public or exported function. KIND is public or exported; ASKS is yes where a
# `requires` stands behind its head, and else no. A method is TYPE::NAME, a function of another file than lib.rt FILE::NAME.

function close_last() {
    if (name != "" && kind != "")
        print crate, name, kind, asks
    name = ""
}

FNR == 1 {
    close_last()
    split(FILENAME, parts, "/src/")
    crate = parts[1]
    sub(/^.*\//, "", crate)
    module = parts[2] ~ /^(lib|main)\.rt$/ ? "" : parts[2]
    sub(/\.rt$/, "::", module)
    type = ""
}
{
    gsub(/\/\*[^*]*\*\//, "")
    sub(/\/\/.*/, "")
}
/^impl / { type = $2 "::" }
/^}/ { type = "" }
/(^|[^A-Za-z0-9_])fn [A-Za-z]/ {
    close_last()
    name = before = $0
    sub(/(^|[^A-Za-z0-9_])fn .*/, "", before)
    sub(/^(.*[^A-Za-z0-9_])?fn /, "", name)
    sub(/[^A-Za-z0-9_].*/, "", name)
    name = (type != "" ? type : module) name
    kind = before ~ /extern/ ? "exported" : before ~ /(^| )pub( |$)/ ? "public" : ""
    asks = "no"
}
/(^|[^A-Za-z0-9_])requires([^A-Za-z0-9_]|$)/ { asks = "yes" }
END { close_last() }
