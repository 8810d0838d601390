title='mplrs: a cube of 4 dimensions'
packages='mplrs'
options='--this-run'
note="a receive that nothing completed has a wait added at the end of its rank: the deadlock is none of the program, which ends in sync too"
words='cube.ine'
prepare() { ln -s /usr/bin/mplrs program
    awk 'BEGIN { print "cube\nH-representation\nbegin\n8 5 rational"
        for (i = 1; i <= 4; i++) for (s = -1; s <= 1; s += 2) { printf "1"; for (j = 1; j <= 4; j++) printf " %d", i == j ? s : 0; print "" }
        print "end" }' > cube.ine; }
