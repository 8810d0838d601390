title='GARLI: 10 taxa, 4 searches'
packages='garli-mpi'
words='-4 garli.conf'
prepare() { ln -s /usr/lib/garli/bin/Garli-mpi program; taxa > taxa.phy
    printf '%s\n' '[general]' datafname=taxa.phy constraintfile=none streefname=random attachmentspertaxon=5 ofprefix=run \
        randseed=1 availablememory=64 logevery=10 saveevery=100 refinestart=0 outputeachbettertopology=0 \
        enforcetermconditions=1 genthreshfortopoterm=50 scorethreshforterm=0.05 significanttopochange=0.01 \
        outputphyliptree=0 outputmostlyuselessfiles=0 writecheckpoints=0 restart=0 outgroup=1 outputsitelikelihoods=0 \
        collapsebranches=1 searchreps=1 datatype=nucleotide ratematrix=6rate statefrequencies=estimate \
        ratehetmodel=none numratecats=1 invariantsites=none '[master]' bootstrapreps=0 resampleproportion=1.0 \
        inferinternalstateprobs=0 nindivs=4 holdover=1 selectionintensity=0.5 holdoverpenalty=0 stopgen=60 stoptime=20 \
        startoptprec=0.5 minoptprec=0.01 numberofprecreductions=10 treerejectionthreshold=50 topoweight=1.0 modweight=0.05 \
        brlenweight=0.2 randnniweight=0.1 randsprweight=0.3 limsprweight=0.6 intervallength=100 intervalstostore=5 \
        limsprrange=6 meanbrlenmuts=5 gammashapebrlen=1000 gammashapemodel=1000 uniqueswapbias=0.1 distanceswapbias=1.0 > garli.conf; }
