title='Quantum ESPRESSO: silicon'
packages='quantum-espresso quantum-espresso-data'
options='--free-tests'
words='-in small.in'
prepare() { ln -s /usr/bin/pw.x program
    printf "&control\n calculation='scf', prefix='si', pseudo_dir='/usr/share/espresso/pseudo', outdir='.'\n/\n&system\n ibrav=2, celldm(1)=10.2, nat=2, ntyp=1, ecutwfc=8\n/
&electrons\n/\nATOMIC_SPECIES\n Si 28.086 Si.pz-vbc.UPF\nATOMIC_POSITIONS alat\n Si 0 0 0\n Si 0.25 0.25 0.25\nK_POINTS automatic\n 2 2 2 0 0 0\n" > small.in; }
