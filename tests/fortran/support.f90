!> Support for the Fortran tests: cases that print one line each, and the log of document 01.
module support
  use, intrinsic :: iso_c_binding, only: c_int8_t, c_int16_t, c_int32_t
  implicit none
  private

  public :: untouched, untouched_entry, begin, expect, finish, bytes, document_log

  !> What a lent room holds before the call: no number that a call writes.
  integer(c_int32_t), parameter :: untouched = -1515870811_c_int32_t

  !> The same for a room of both tables: no table entry.
  integer(c_int16_t), parameter :: untouched_entry = -23131_c_int16_t

  character(len=80) :: name = ''
  character(len=80) :: why = ''
  logical :: any_failed = .false.

contains

  !> Begins a case; prints the line of the one before.
  subroutine begin(case_name)
    character(len=*), intent(in) :: case_name

    call print_line()
    name = case_name
    why = ''
  end subroutine begin

  !> Notes the first expectation of the case that does not hold.
  subroutine expect(holds, what)
    logical, intent(in) :: holds
    character(len=*), intent(in) :: what

    if (.not. holds .and. why == '') why = what
  end subroutine expect

  !> Prints the last line; ends with a status other than 0 if a case failed.
  subroutine finish()
    call print_line()
    if (any_failed) stop 1, quiet=.true.
  end subroutine finish

  subroutine print_line()
    if (name == '') return
    if (why == '') then
      print '(a)', 'ok ' // trim(name)
    else
      print '(a)', 'FAILED ' // trim(name) // ': not ' // trim(why)
      any_failed = .true.
    end if
  end subroutine print_line

  !> The bytes of a text.
  pure function bytes(text) result(list)
    character(len=*), intent(in) :: text
    integer(c_int8_t) :: list(len(text))

    list = transfer(text, list)
  end function bytes

  !> Document 01's log: replicate 3 has draws 0 to 31; 7 has 100 to 107, then 0 to 31; 9 has five draws of 0.
  pure function document_log() result(log)
    integer(c_int8_t) :: log(664)
    integer :: k

    log = [draws([(k, k = 0, 31)]), draws([(k, k = 100, 107), (k, k = 0, 31)]), draws([0, 0, 0, 0, 0]), &
        low_first(3, 4), low_first(0, 4), low_first(256, 4), &
        low_first(7, 4), low_first(256, 4), low_first(320, 4), &
        low_first(9, 4), low_first(576, 4), low_first(40, 4), &
        low_first(616, 4), low_first(3, 4), bytes('DRAW')]
  end function document_log

  pure function draws(values) result(block)
    integer, intent(in) :: values(:)
    integer(c_int8_t) :: block(8 * size(values))
    integer :: k

    block = [(low_first(values(k), 8), k = 1, size(values))]
  end function draws

  !> A number of at least 0 in this many bytes, low byte first.
  pure function low_first(number, length) result(list)
    integer, intent(in) :: number, length
    integer(c_int8_t) :: list(length)
    integer :: k, rest, low

    rest = number
    do k = 1, length
      low = modulo(rest, 256)
      list(k) = int(merge(low, low - 256, low < 128), c_int8_t)
      rest = rest / 256
    end do
  end function low_first

end module support
