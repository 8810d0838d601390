" Vim syntax of mpiprove's texts: program texts (.mpi) and SPMD texts (.spmd)
if exists('b:current_syntax')
  finish
endif

syntax case match
syntax keyword mpiproveHead ranks policy rank spmd param
syntax keyword mpiprovePolicy any none all
syntax keyword mpiproveSend send ssend bsend isend issend ibsend
syntax keyword mpiproveReceive recv irecv probe mprobe mrecv imrecv sendrecv
syntax keyword mpiproveWait wait waitall
syntax keyword mpiproveComm comm among
syntax match mpiproveNumber /\<[0-9]\+\>/
syntax match mpiproveWildcard /\*/
if expand('%:e') ==# 'spmd'
  syntax keyword mpiproveCollective barrier allreduce allgather alltoall scan bcast reduce gather scatter
  syntax keyword mpiproveControl let for to step end if elif else then error
  syntax keyword mpiproveOperator and or not div mod shl shr xor
  syntax keyword mpiproveValue size null
  syntax match mpiproveComment /#.*/
endif

highlight default link mpiproveHead PreProc
highlight default link mpiprovePolicy Constant
highlight default link mpiproveSend Statement
highlight default link mpiproveReceive Type
highlight default link mpiproveWait Keyword
highlight default link mpiproveCollective Function
highlight default link mpiproveComm Special
highlight default link mpiproveControl Conditional
highlight default link mpiproveOperator Operator
highlight default link mpiproveValue Identifier
highlight default link mpiproveNumber Number
highlight default link mpiproveWildcard Special
highlight default link mpiproveComment Comment

let b:current_syntax = 'mpiprove'
