title='hypre examples: ex5'
packages='libhypre-dev'
options='--this-run'
words='-n 10'
prepare() { hypre ex5; }
