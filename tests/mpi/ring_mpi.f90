! ring_mpi.f90: a ring, a split, a receive of any source, a poll, a window; by use mpi (2 ranks or more).
program ring
  use mpi
  implicit none
  integer :: rank, ranks, ierror, x, y
  integer(kind=MPI_ADDRESS_KIND) :: bytes
  logical :: done
  integer :: requests(2), half, copy, window, status(MPI_STATUS_SIZE)

  call MPI_INIT(ierror)
  call MPI_COMM_RANK(MPI_COMM_WORLD, rank, ierror)
  call MPI_COMM_SIZE(MPI_COMM_WORLD, ranks, ierror)
  x = rank
  call MPI_IRECV(y, 1, MPI_INTEGER, MPI_ANY_SOURCE, 3, MPI_COMM_WORLD, requests(1), ierror)
  call MPI_ISEND(x, 1, MPI_INTEGER, mod(rank + 1, ranks), 3, MPI_COMM_WORLD, requests(2), ierror)
  call MPI_WAITALL(2, requests, MPI_STATUSES_IGNORE, ierror)

  call MPI_COMM_SPLIT(MPI_COMM_WORLD, mod(rank, 2), 0, half, ierror)
  call MPI_COMM_IDUP(half, copy, requests(1), ierror)
  call MPI_WAIT(requests(1), MPI_STATUS_IGNORE, ierror)
  call MPI_BARRIER(copy, ierror)
  call MPI_COMM_FREE(copy, ierror)
  call MPI_COMM_FREE(half, ierror)

  if (rank == 0) then
    call MPI_SEND(x, 1, MPI_INTEGER, MPI_PROC_NULL, 1, MPI_COMM_WORLD, ierror)
    call MPI_RECV(y, 1, MPI_INTEGER, MPI_ANY_SOURCE, MPI_ANY_TAG, MPI_COMM_WORLD, status, ierror)
  else if (rank == 1) then
    call MPI_SEND(x, 1, MPI_INTEGER, 0, 9, MPI_COMM_WORLD, ierror)
  end if

  done = .false.
  call MPI_IBARRIER(MPI_COMM_WORLD, requests(1), ierror)
  do while (.not. done)
    call MPI_TEST(requests(1), done, MPI_STATUS_IGNORE, ierror)
  end do
  call MPI_ALLREDUCE(MPI_IN_PLACE, x, 1, MPI_INTEGER, MPI_SUM, MPI_COMM_WORLD, ierror)
  if (x /= ranks * (ranks - 1) / 2) print *, 'WRONG sum', x

  bytes = 4
  call MPI_WIN_CREATE(x, bytes, 4, MPI_INFO_NULL, MPI_COMM_WORLD, window, ierror)
  call MPI_WIN_FENCE(0, window, ierror)
  call MPI_WIN_FREE(window, ierror)
  call MPI_FINALIZE(ierror)
end program ring
