! Rank 0 takes a message of rank 1, which is behind a reduction in which rank 0 has to take part.
program fortran
  use mpi
  implicit none
  integer :: e, me, x, y
  call MPI_Init(e)
  call MPI_Comm_rank(MPI_COMM_WORLD, me, e)
  x = me
  if (me == 0) then
    call MPI_Barrier(MPI_COMM_WORLD, e)
    call MPI_Recv(x, 1, MPI_INTEGER, 1, 0, MPI_COMM_WORLD, MPI_STATUS_IGNORE, e)
  else
    call MPI_Barrier(MPI_COMM_WORLD, e)
    call MPI_Allreduce(x, y, 1, MPI_INTEGER, MPI_SUM, MPI_COMM_WORLD, e)
  end if
  call MPI_Finalize(e)
end program
