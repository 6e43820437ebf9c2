# 65,536 bytes: one clause, then comments
awk 'function repeat(text, times,  i) { for (i = 0; i < times; i++) printf "%s", text }
BEGIN { printf "p cnf 1 1\n1 0\n"; repeat("c\n", 32761) }'
