title='SUNDIALS examples: cvAdvDiff_diag_p'
packages='libsundials-dev'
options='--calls 2000'
shows=yes
prepare() { sundials cvode/parallel/cvAdvDiff_diag_p.c cvode; }
