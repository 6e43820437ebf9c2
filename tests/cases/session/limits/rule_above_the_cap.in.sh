# 4,000 rules in the book, and one more by a call
awk 'BEGIN { print "(book 1)\n(flags 1)"; for (n = 0; n < 4000; n++) print "(rule 1)"; print "(end)\n(rule 1)\n(card)\n(withdraw)\n(rule 1)\n(rule 1)" }'
