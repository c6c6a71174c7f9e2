# A layout with another seed, which is a line before the first table. Ends with 1 where there is no such line.
/^[ \t]*\[/ { in_tables = 1 }
!in_tables && !done && /^[ \t]*seed[ \t]*=/ { print "seed = " seed; done = 1; next }
{ print }
END { exit !done }
