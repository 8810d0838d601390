title='SUNDIALS examples: kinFoodWeb_kry_p'
packages='libsundials-dev'
options='--calls 2000'
prepare() { sundials kinsol/parallel/kinFoodWeb_kry_p.c kinsol; }
