# The crates of crates.txt below a target, and the target, each after those that it uses.
# usage: awk -f scripts/crates.awk -v target=CRATE crates.txt
BEGIN { FS = ":" }
{ sub(/ .*/, "", $1); uses[$1] = $2 }
function visit(crate,    names, count, i) {
    if (!(crate in uses) || seen[crate]++) return
    count = split(uses[crate], names, " ")
    for (i = 1; i <= count; i++) visit(names[i])
    print crate
}
END { visit(target) }
