! Rank 0 takes a message from anybody three times, and only two are sent. Of one it asks for the status, of the other it does not.
program fortran_any_source
    use mpi
    implicit none
    integer :: error, me, x, status(MPI_STATUS_SIZE)
    call MPI_Init(error)
    call MPI_Comm_rank(MPI_COMM_WORLD, me, error)
    x = me
    if (me == 0) then
        call MPI_Recv(x, 1, MPI_INTEGER, MPI_ANY_SOURCE, 5, MPI_COMM_WORLD, status, error)
        call MPI_Recv(x, 1, MPI_INTEGER, MPI_ANY_SOURCE, 5, MPI_COMM_WORLD, MPI_STATUS_IGNORE, error)
        call MPI_Recv(x, 1, MPI_INTEGER, MPI_ANY_SOURCE, 5, MPI_COMM_WORLD, status, error)
    else
        call MPI_Send(x, 1, MPI_INTEGER, 0, 5, MPI_COMM_WORLD, error)
    end if
    call MPI_Barrier(MPI_COMM_WORLD, error)
    call MPI_Finalize(error)
end program
