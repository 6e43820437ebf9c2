# 4000 rules
awk 'BEGIN { print "(book 1)\n(flags 1)"; for (n = 0; n < 4000; n++) print "(rule 1)"; print "(end)" }'
