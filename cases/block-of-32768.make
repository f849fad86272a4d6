# A block of the greatest length.
printf 'store 1 1 1 3 3\nc1 append /a '
head -c 65536 /dev/zero | tr '\0' 0
echo
