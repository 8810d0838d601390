title='HPCC'
packages='hpcc'
options='--this-run'
prepare() { ln -s /usr/bin/hpcc program
    sed "s/^[0-9]* *Ns$/40 Ns/; s/^1 *Ps$/2 Ps/; s/^1 *Qs$/2 Qs/" /usr/share/doc/hpcc/examples/_hpccinf.txt > hpccinf.txt; }
