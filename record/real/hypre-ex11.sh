title='hypre examples: ex11'
packages='libhypre-dev'
options='--this-run'
words='-n 10'
prepare() { hypre ex11; }
