! Ranks 0 and 2 take messages from rank 1 by receives that begin again; that of rank 0 has another tag than the message.
program fortran_tags
  use mpi
  implicit none
  integer :: e, me, x, q
  x = 0
  call MPI_Init(e)
  call MPI_Comm_rank(MPI_COMM_WORLD, me, e)
  if (me == 1) then
    call MPI_Send(x, 1, MPI_INTEGER, 0, 3, MPI_COMM_WORLD, e)
    call MPI_Send(x, 1, MPI_INTEGER, 2, 7, MPI_COMM_WORLD, e)
  else
    call MPI_Recv_init(x, 1, MPI_INTEGER, 1, 7, MPI_COMM_WORLD, q, e)
    call MPI_Start(q, e)
    call MPI_Wait(q, MPI_STATUS_IGNORE, e)
    call MPI_Request_free(q, e)
  end if
  call MPI_Barrier(MPI_COMM_WORLD, e)
  call MPI_Finalize(e)
end program
