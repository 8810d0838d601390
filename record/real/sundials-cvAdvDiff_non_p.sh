title='SUNDIALS examples: cvAdvDiff_non_p'
packages='libsundials-dev'
options='--calls 2000'
prepare() { sundials cvode/parallel/cvAdvDiff_non_p.c cvode; }
