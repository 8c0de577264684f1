! Comes to its end: messages go round by requests, which are waited for and tested in each way; one is given up; each rank is late at times.
program fortran_requests_end
  use mpi
  implicit none
  integer :: e, me, n, turn, which, many, k, next, last
  integer :: x(4), q(4), done(4)
  logical :: flag
  call MPI_Init(e)
  call MPI_Comm_rank(MPI_COMM_WORLD, me, e)
  call MPI_Comm_size(MPI_COMM_WORLD, n, e)
  next = mod(me + 1, n)
  last = mod(me + n - 1, n)
  do turn = 1, 12
    do k = 1, 2
      call MPI_Irecv(x(k), 1, MPI_INTEGER, merge(MPI_ANY_SOURCE, last, mod(turn, 5) == 0), turn, MPI_COMM_WORLD, q(k), e)
    end do
    if (mod(turn + me, 6) == 0) call sleep(1)
    do k = 3, 4
      call MPI_Isend(me, 1, MPI_INTEGER, next, turn, MPI_COMM_WORLD, q(k), e)
    end do
    flag = .false.
    select case (mod(turn, 4))
    case (0)
      call MPI_Waitall(4, q, MPI_STATUSES_IGNORE, e)
    case (1)
      do k = 1, 4
        call MPI_Waitany(4, q, which, MPI_STATUS_IGNORE, e)
      end do
    case (2)
      many = 0
      do while (many /= MPI_UNDEFINED)
        call MPI_Waitsome(4, q, many, done, MPI_STATUSES_IGNORE, e)
      end do
    case default
      do k = 1, 3
        call MPI_Wait(q(k), MPI_STATUS_IGNORE, e)
      end do
      do while (.not. flag)
        call MPI_Test(q(4), flag, MPI_STATUS_IGNORE, e)
      end do
    end select
  end do
  call MPI_Irecv(x(1), 1, MPI_INTEGER, last, 99, MPI_COMM_WORLD, q(1), e)
  call MPI_Cancel(q(1), e)
  call MPI_Wait(q(1), MPI_STATUS_IGNORE, e)
  call MPI_Sendrecv(me, 1, MPI_INTEGER, next, 0, x(1), 1, MPI_INTEGER, last, 0, MPI_COMM_WORLD, MPI_STATUS_IGNORE, e)
  if (me == 0) print *, 'end', x(1)
  call MPI_Finalize(e)
end program
