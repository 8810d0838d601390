title='PT-Scotch: dgtst'
packages='ptscotch'
words='small.src'
prepare() { ring_graph dgtst; }
