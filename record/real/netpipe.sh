title='NetPIPE'
packages='netpipe-openmpi'
ranks=2
words='-u 64 -n 5 -o times'
prepare() { ln -s /usr/bin/NPopenmpi program; }
