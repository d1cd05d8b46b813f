# Prints the stray cards of a batch, each behind its number: LC_ALL=C awk -f stray.awk batch.cards
function is_name(text) {
    return length(text) <= 8 && text ~ /^[A-Z][A-Z0-9]*$/
}
function opens(name) {
    if (word != "%ACCOUNT" || NF != 3 || !is_name(name)) return 0
    if ($3 !~ /^[0-9]+$/ || $3 + 0 > 999999999 || name in open || accounts == 500) return 0
    open[name]
    return ++accounts
}
function begins(name) {
    if (word != "%LIBRARY" || NF != 2 || !is_name(name) || name in kept || libraries == 20) return 0
    kept[name]
    return ++libraries
}
{
    sub(/\r$/, "")
    gsub(/\t/, " ")
    sub(/ +$/, "")
    word = toupper($0)
    sub(/ .*/, "", word)
}
word == "%JOB" { begun = inside = 1 }
inside && word == "%EOJ" { inside = 0; next }
!begun && word ~ /^%(ACCOUNT|DATA|EOJ|LIBRARY)$/ { library = begins(toupper($2)) }
inside || !begun && library || $0 == "" { next }
begun || !opens(toupper($2)) { print NR ": " $0 }
