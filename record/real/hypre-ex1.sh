title='hypre examples: ex1'
packages='libhypre-dev'
options='--this-run'
words='-n 10'
ranks=2
prepare() { hypre ex1; }
