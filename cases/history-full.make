# One client fills its own history: two commands that cost 9, and 21,841 looks at the root, each with a begin, an end and one transaction.
# Of the next look's three transactions the history takes two. Then no command can begin, but for other clients.
echo "store 1 1 1 3 3"
echo "c1 mkdir /a"
echo "c1 mkdir /a/b"
yes 'c1 look /' | head -n 21841
echo "c1 look /a/b/c"
echo "c1 look /"
echo "c1 begin look /"
echo "c1 run"
echo "c2 look /a"
