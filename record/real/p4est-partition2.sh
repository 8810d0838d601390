title='p4est tests: partition2'
packages='libp4est-dev'
prepare() { p4est partition2; }
