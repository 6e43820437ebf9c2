# 4001 rules
awk 'BEGIN { print "(book 1)\n(flags 1)"; for (n = 0; n < 4001; n++) print "(rule 1)"; print "(end)" }'
