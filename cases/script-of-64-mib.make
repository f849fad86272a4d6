# One comment with no end, of just as many bytes as a script may have: its line is too long.
head -c 67108864 /dev/zero | tr '\0' '#'
