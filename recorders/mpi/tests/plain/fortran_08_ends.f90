! Comes to its end: messages go round by calls that send and receive, and by requests, some of them a second late.
program fortran_08_ends
  use mpi_f08
  implicit none
  integer :: me, n, x, y, turn
  type(MPI_Request) :: q(2)
  type(MPI_Comm) :: half
  call MPI_Init()
  call MPI_Comm_rank(MPI_COMM_WORLD, me)
  call MPI_Comm_size(MPI_COMM_WORLD, n)
  call MPI_Comm_split(MPI_COMM_WORLD, mod(me, 2), me, half)
  do turn = 1, 3
    call MPI_Irecv(x, 1, MPI_INTEGER, mod(me + n - 1, n), 0, MPI_COMM_WORLD, q(1))
    call sleep(mod(me + turn, 2))
    call MPI_Isend(me, 1, MPI_INTEGER, mod(me + 1, n), 0, MPI_COMM_WORLD, q(2))
    call MPI_Waitall(2, q, MPI_STATUSES_IGNORE)
    call MPI_Sendrecv_replace(x, 1, MPI_INTEGER, mod(me + 1, n), 0, mod(me + n - 1, n), 0, MPI_COMM_WORLD, MPI_STATUS_IGNORE)
    call MPI_Barrier(half)
    call MPI_Bcast(x, 1, MPI_INTEGER, 0, MPI_COMM_WORLD)
  end do
  call MPI_Allreduce(x, y, 1, MPI_INTEGER, MPI_SUM, MPI_COMM_WORLD)
  if (me == 0) print *, 'end', y
  call MPI_Finalize()
end program
