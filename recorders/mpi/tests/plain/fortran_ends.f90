! Comes to its end: messages go round by requests, some of them a second late.
program fortran_ends
  use mpi
  implicit none
  integer :: e, me, n, x, y, q(2)
  call MPI_Init(e)
  call MPI_Comm_rank(MPI_COMM_WORLD, me, e)
  call MPI_Comm_size(MPI_COMM_WORLD, n, e)
  call MPI_Irecv(x, 1, MPI_INTEGER, mod(me + n - 1, n), 0, MPI_COMM_WORLD, q(1), e)
  call sleep(mod(me, 2))
  call MPI_Isend(me, 1, MPI_INTEGER, mod(me + 1, n), 0, MPI_COMM_WORLD, q(2), e)
  call MPI_Waitall(2, q, MPI_STATUSES_IGNORE, e)
  call MPI_Allreduce(x, y, 1, MPI_INTEGER, MPI_SUM, MPI_COMM_WORLD, e)
  if (me == 0) print *, 'end', y
  call MPI_Finalize(e)
end program
