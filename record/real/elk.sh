title='ELK: aluminium'
packages='elk-lapw'
prepare() { ln -s /usr/bin/elk-lapw program
    cp /usr/share/elk-lapw/species/Al.in .
    printf "tasks\n 0\n\nsppath\n './'\n\navec\n 3.8 3.8 0\n 3.8 0 3.8\n 0 3.8 3.8\n\natoms\n 1\n 'Al.in'\n 1\n 0 0 0 0 0 0\n\nngridk\n 2 2 2\n\nmaxscl\n 3\n\n" > elk.in; }
