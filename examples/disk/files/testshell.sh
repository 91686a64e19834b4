# Lines for a shell: what it prints of them stands in consoles/testshell.
faultio
spawnhello
testpteshare

# words, jobs and what ends a line
echo hello world # and no more
echo one ; echo -n "two" ; ; echo
cat motd newmotd ; echo

# pipes
echo hello world | cat
cat lorem | num
cat lorem | num | num | num | num | num
cat lorem | num | cat | wc

# files that input comes from and output goes to
wc < lorem
lsfd -1 < motd
< motd num > made
cat made ; wc made
echo anew > made ; cat < made | num
sh < script

# what goes wrong
nosuch
motd
cat nosuch
cat < nosuch
echo a | ; echo b
echo a < motd < motd
echo (a)
wc lorem
