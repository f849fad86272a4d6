# A store line and 65,535 comments.
echo "store 1 1 1 3 3"
yes '#' | head -n 65535
