! Comes to its end: messages of several tags, taken in another order than they were sent, in each way, also of any tag and from anybody; each rank is late at times.
program fortran_tags_end
  use mpi
  implicit none
  integer :: e, me, n, turn, k, next, last, x, q(2), m, sum
  logical :: flag
  sum = 0
  call MPI_Init(e)
  call MPI_Comm_rank(MPI_COMM_WORLD, me, e)
  call MPI_Comm_size(MPI_COMM_WORLD, n, e)
  next = mod(me + 1, n)
  last = mod(me + n - 1, n)
  call MPI_Send_init(me, 1, MPI_INTEGER, next, 1, MPI_COMM_WORLD, q(1), e)
  call MPI_Recv_init(x, 1, MPI_INTEGER, last, 1, MPI_COMM_WORLD, q(2), e)
  do turn = 1, 6
    if (mod(turn, 6) == me) call sleep(1)
    do k = 2, 6
      call MPI_Send(me, 1, MPI_INTEGER, next, k, MPI_COMM_WORLD, e)
    end do
    if (mod(turn, 6) == me + 3) call sleep(1)
    call MPI_Startall(2, q, e)
    call MPI_Recv(x, 1, MPI_INTEGER, last, 6, MPI_COMM_WORLD, MPI_STATUS_IGNORE, e)
    call MPI_Recv(x, 1, MPI_INTEGER, merge(last, MPI_ANY_SOURCE, mod(turn, 2) == 0), 4, MPI_COMM_WORLD, MPI_STATUS_IGNORE, e)
    sum = sum + x
    call MPI_Waitall(2, q, MPI_STATUSES_IGNORE, e)
    call MPI_Probe(last, 3, MPI_COMM_WORLD, MPI_STATUS_IGNORE, e)
    call MPI_Mprobe(last, 3, MPI_COMM_WORLD, m, MPI_STATUS_IGNORE, e)
    call MPI_Mrecv(x, 1, MPI_INTEGER, m, MPI_STATUS_IGNORE, e)
    flag = .false.
    do while (.not. flag)
      call MPI_Improbe(MPI_ANY_SOURCE, 5, MPI_COMM_WORLD, flag, m, MPI_STATUS_IGNORE, e)
    end do
    call MPI_Mrecv(x, 1, MPI_INTEGER, m, MPI_STATUS_IGNORE, e)
    call MPI_Recv(x, 1, MPI_INTEGER, last, MPI_ANY_TAG, MPI_COMM_WORLD, MPI_STATUS_IGNORE, e)
    sum = sum + x
  end do
  if (me == 0) print *, 'end', sum
  call MPI_Finalize(e)
end program
