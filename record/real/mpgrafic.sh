title='mpgrafic: 16 cubed'
packages='mpgrafic'
stdin=small.in
prepare() { ln -s /usr/bin/mpgrafic program
    zcat -f /usr/share/doc/mpgrafic/examples/Input.stdin* > small.in; }
words='--np=16'
