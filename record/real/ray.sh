title='Ray: 50 pairs of reads'
packages='ray'
words='-k 21 -p left.fasta right.fasta 100 10 -o assembled'
options='--this-run --calls 4000'
prepare() { ln -s /usr/bin/Ray program
    awk 'BEGIN { srand(3); for (i = 0; i < 400; i++) g = g substr("ACGT", 1 + int(rand() * 4), 1)
        for (i = 0; i < 50; i++) { at = 1 + int(rand() * 300); l = substr(g, at, 40); r = substr(g, at + 60, 40); b = ""
            for (j = 40; j > 0; j--) { c = substr(r, j, 1); b = b substr("TGCA", index("ACGT", c), 1) }
            print ">" i "\n" l > "left.fasta"; print ">" i "\n" b > "right.fasta" } }'; }
