title='ExaML: 10 taxa, GAMMA'
packages='examl'
words='-s taxa.binary -t taxa.tree -m GAMMA -n run'
prepare() { taxa > taxa.phy
    printf '#!/bin/sh\n[ "$OMPI_COMM_WORLD_RANK" != 0 ] || rm -f ExaML_*\nexec /usr/lib/examl/bin/examl-sse3 "$@"\n' > program
    chmod +x program
    echo '(t0,t1,(t2,(t3,(t4,(t5,(t6,(t7,(t8,t9))))))));' > taxa.tree
    parse-examl -s taxa.phy -n taxa -m DNA; }
