title='petsc4py: CG, Jacobi, 20 rows'
packages='python3-petsc4py'
words='small.py'
prepare() { ln -s /usr/bin/python3 program
    printf 'from petsc4py import PETSc\nA = PETSc.Mat().createAIJ([20, 20], nnz=3)\nfirst, last = A.getOwnershipRange()
for i in range(first, last):\n    A[i, i] = 2\n    if i > 0: A[i, i - 1] = -1\n    if i < 19: A[i, i + 1] = -1
A.assemble()\nx, b = A.createVecs()\nb.set(1)\nk = PETSc.KSP().create()\nk.setOperators(A)\nk.setType("cg")\nk.getPC().setType("jacobi")\nk.solve(b, x)\n' > small.py; }
