#!/bin/bash
# Times how queries of CQL are read, and how they are mapped to queries of type 1.
#
# cql_lex and cql_parse read a query of about 10 MiB, of several shapes, and one of about 1 MiB. Short
# clauses cost more for their octets than long ones: a clause takes six allocations, which are 28 to
# 41 % of its time, and its large values are moved from call to call. So 50 MB/s are promised for
# clauses of 100 octets and more. From text to query of type 1 an octet of a query of 16000 octets and
# one of a query of 200 may cost at most 12 times as much as the other.
#
# The status is 0 where what is promised was seen, else 1.
. "$(dirname "$0")/readers.sh"

echo "Clauses of a title, in brackets that halve the query, then clauses of a word"
compare cql-phrases 10485760 8
compare cql-words 10485760 4
echo "Two quoted strings"
compare cql-strings 10485760 40

status=0
phrases=$(speed cql-phrases 10485760 8 | cut -d ' ' -f 2)
awk -v seen="$phrases" 'BEGIN { exit !(seen >= 50) }' || status=1
echo "Clauses of 133 octets at $phrases MB/s; 50 are promised"

large=$(speed cql-mapped 16000 2000 | cut -d ' ' -f 2)
small=$(speed cql-mapped 200 160000 | cut -d ' ' -f 2)
ratio=$(awk -v a="$large" -v b="$small" 'BEGIN { printf "%.2f", (a > b ? a / b : b / a) }')
awk -v seen="$ratio" 'BEGIN { exit !(seen <= 12) }' || status=1
echo "From text to type 1: a query of 16000 octets at $large MB/s, one of 200 at $small; $ratio times apart, 12 are promised"
exit $status
