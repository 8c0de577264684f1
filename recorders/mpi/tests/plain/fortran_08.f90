! Ranks 1 and 2 sum what they have, while rank 0 takes a message of rank 1 first.
program fortran_08
  use mpi_f08
  implicit none
  integer :: me, x, y
  type(MPI_Comm) :: all
  call MPI_Init()
  call MPI_Comm_dup(MPI_COMM_WORLD, all)
  call MPI_Comm_rank(all, me)
  x = me
  call MPI_Barrier(all)
  if (me == 0) then
    call MPI_Recv(x, 1, MPI_INTEGER, 1, 0, all, MPI_STATUS_IGNORE)
  end if
  call MPI_Allreduce(x, y, 1, MPI_INTEGER, MPI_SUM, all)
  call MPI_Finalize()
end program
