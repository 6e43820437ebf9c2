# the same text with one byte more in its last comment
awk 'function repeat(text, times,  i) { for (i = 0; i < times; i++) printf "%s", text }
BEGIN { printf "p cnf 1 1\n1 0\n"; repeat("c\n", 32760); printf "cc\n" }'
