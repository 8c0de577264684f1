! As fortran_any_source, by the module mpi_f08, and with requests of which any one is waited for.
program fortran_08_any_source
    use mpi_f08
    implicit none
    integer :: me, x, which
    type(MPI_Status) :: status
    type(MPI_Request) :: request(1)
    call MPI_Init()
    call MPI_Comm_rank(MPI_COMM_WORLD, me)
    x = me
    if (me == 0) then
        call MPI_Irecv(x, 1, MPI_INTEGER, MPI_ANY_SOURCE, 5, MPI_COMM_WORLD, request(1))
        call MPI_Waitany(1, request, which, status)
        call MPI_Recv(x, 1, MPI_INTEGER, MPI_ANY_SOURCE, 5, MPI_COMM_WORLD, MPI_STATUS_IGNORE)
        call MPI_Recv(x, 1, MPI_INTEGER, MPI_ANY_SOURCE, 5, MPI_COMM_WORLD, status)
    else
        call MPI_Send(x, 1, MPI_INTEGER, 0, 5, MPI_COMM_WORLD)
    end if
    call MPI_Barrier(MPI_COMM_WORLD)
    call MPI_Finalize()
end program
