title='IQ-TREE: 10 taxa'
packages='iqtree'
words='-s taxa.phy -m JC -n 2 -ninit 4 -redo'
prepare() { ln -s /usr/bin/iqtree2-mpi program; taxa > taxa.phy; }
