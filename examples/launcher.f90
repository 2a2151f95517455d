!> Checks a draw log for a launcher: do two replicates share draws?
!>
!>   launcher LOG
!>
!> Prints a line for each overlapping pair, then the totals. Ends with status 0 if the log is sound and no pair
!> overlaps, with 1 if one does, and with 2 if the log is refused or cannot be read.
program launcher
  use, intrinsic :: iso_c_binding, only: c_int8_t, c_int16_t, c_int32_t
  use, intrinsic :: iso_fortran_env, only: error_unit
  use nahuitepol
  implicit none

  integer, parameter :: longest_log = 65536, most_replicates = 64
  integer(c_int32_t), parameter :: p = 32

  integer(c_int8_t), allocatable :: log(:)
  integer(c_int16_t) :: tables(16 * p)
  integer(c_int32_t) :: memory(8 * p), found(4 * most_replicates * (most_replicates - 1))
  type(nahui_checked) :: answer

  call read_log(log)
  answer = nahui_check(log, p, tables, memory, found)
  if (answer%refusal /= 0) then
    print '(a, i0, a, i0)', 'the log is refused: number ', answer%refusal, ', entry ', answer%entry
    stop 2, quiet=.true.
  end if
  call print_pairs(found(:4 * answer%pairs))
  print '(a, i0, a, i0)', 'overlapping pairs ', answer%pairs, ', replicates too short to probe ', answer%unprobed
  if (answer%pairs > 0) stop 1, quiet=.true.

contains

  !> Reads the log that the command line names: at most one byte more than a log may have, so that a longer one
  !> is refused as such.
  subroutine read_log(bytes)
    integer(c_int8_t), allocatable, intent(out) :: bytes(:)
    character(len=4096) :: name
    integer :: unit, length, problem

    if (command_argument_count() /= 1) call give_up('usage: launcher LOG')
    call get_command_argument(1, name)
    open(newunit=unit, file=trim(name), access='stream', form='unformatted', action='read', status='old', &
        iostat=problem)
    if (problem /= 0) call give_up('cannot open ' // trim(name))
    inquire(unit, size=length)
    allocate(bytes(min(length, longest_log + 1)))
    read(unit, iostat=problem) bytes
    if (problem /= 0) call give_up('cannot read ' // trim(name))
    close(unit)
  end subroutine read_log

  subroutine print_pairs(numbers)
    integer(c_int32_t), intent(in) :: numbers(:)
    integer :: k

    do k = 1, size(numbers), 4
      print '(a, i0, a, i0, a, i0, a, i0)', &
          'replicate ', nahui_unsigned(numbers(k + 1)), ' repeats the front of replicate ', &
          nahui_unsigned(numbers(k)), ': first at byte ', numbers(k + 2), ', times ', numbers(k + 3)
    end do
  end subroutine print_pairs

  subroutine give_up(problem)
    character(len=*), intent(in) :: problem

    write(error_unit, '(a)') problem
    stop 2, quiet=.true.
  end subroutine give_up

end program launcher
