title='PT-Scotch: dgpart'
packages='ptscotch'
words='4 small.src'
options='--this-run'
note='a rank has several threads, whose order the text takes from this run: its deadlock is none of the program, which ends in sync too'
prepare() { ring_graph dgpart; }
