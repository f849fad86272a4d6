# A comment of 70,001 bytes.
echo "store 1 1 1 3 3"
printf '#%070000d\n' 0
