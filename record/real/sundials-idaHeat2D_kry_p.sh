title='SUNDIALS examples: idaHeat2D_kry_p'
packages='libsundials-dev'
options='--calls 2000'
prepare() { sundials ida/parallel/idaHeat2D_kry_p.c ida; }
