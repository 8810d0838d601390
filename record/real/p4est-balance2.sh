title='p4est tests: balance2'
packages='libp4est-dev'
options='--this-run'
prepare() { p4est balance2; }
