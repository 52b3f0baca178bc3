# Lists the calls of a report that were refused, with their lines and what the words mean by docs/PROFILE.md:
#   awk -f scripts/refusals.awk docs/PROFILE.md REPORT

FNR == 1 { file++ }
file == 1 && /^## / { refusals = ($0 == "## Words of refusal") }
file == 1 && refusals && /^[|] `/ {
    split($0, column, " *[|] *")
    gsub(/`/, "", column[2])
    condition[column[2]] = column[4]
    remedy[column[2]] = column[5]
}

file == 2 && /^journal [0-7]$/ { in_journals = 1; domain = $2; next }
file == 2 && !in_journals && /^[0-7][.]/ { split($1, caller, "."); script[caller[1], ++length_of[caller[1]]] = $0 }
file == 2 && in_journals && $1 == "call" && ($3 in condition) {
    refused++
    print "mcrun: domain " domain ", call " $2 ": " script[domain, $2]
    print "mcrun: " $3 ": " condition[$3] "; " remedy[$3]
}

END { if (!refused) print "mcrun: no call of this report was refused" }
