! Each rank begins to take a message of the next one, and waits for it before it sends.
program fortran_requests
  use mpi
  implicit none
  integer :: e, me, n, x, q, status(MPI_STATUS_SIZE)
  call MPI_Init(e)
  call MPI_Comm_rank(MPI_COMM_WORLD, me, e)
  call MPI_Comm_size(MPI_COMM_WORLD, n, e)
  call MPI_Irecv(x, 1, MPI_INTEGER, mod(me + 1, n), 0, MPI_COMM_WORLD, q, e)
  call MPI_Wait(q, status, e)
  call MPI_Send(me, 1, MPI_INTEGER, mod(me + n - 1, n), 0, MPI_COMM_WORLD, e)
  call MPI_Finalize(e)
end program
