# Prints the steps of a book's proofs with their numbers: `awk -f examples/steps.awk my.book` writes
# a line for each step, with the number of its line, its theorem, its number in the proof, and itself.
$1 == "theorem" { title = $2 }
$1 == "proof"   { inside = 1; n = 0; next }
$1 == "end"     { inside = 0 }
inside && NF && $1 != "else" && $1 !~ /^#/ { print FNR ": " title " " ++n ": " $0 }
