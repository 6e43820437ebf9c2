printf '(book 1)\n(flags)\n'; head -c 65520 /dev/zero | tr '\0' '1'
