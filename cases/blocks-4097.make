# One append more than a file may have blocks.
printf 'store 1 1 1 1 1\nc1 create /f\nc1 open /f\n'
for number in $(seq 4097); do echo 'c1 append /f 00'; done
