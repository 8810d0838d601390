title='SUNDIALS examples: idaFoodWeb_kry_p'
packages='libsundials-dev'
options='--calls 2000'
prepare() { sundials ida/parallel/idaFoodWeb_kry_p.c ida; }
