title='MPQC: hydrogen, Hartree-Fock'
packages='mpqc'
words='small.in'
prepare() { ln -s /usr/bin/mpqc program
    printf 'molecule:\n  H 0 0 0\n  H 0 0 0.74\nmethod: HF\nbasis: STO-3G\n' > small.in; }
