title='p4est tests: ghost2'
packages='libp4est-dev'
options='--this-run'
prepare() { p4est ghost2; }
