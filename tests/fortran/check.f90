!> The overlap check from Fortran, with known answers.
program check
  use, intrinsic :: iso_c_binding, only: c_int8_t, c_int16_t, c_int32_t
  use nahuitepol
  use support
  implicit none

  integer(c_int32_t), parameter :: p = 32
  integer(c_int16_t) :: tables(515)
  integer(c_int32_t) :: memory(259), found(24)
  integer(c_int8_t) :: log(664)
  type(nahui_checked) :: answer
  type(nahui_written) :: written

  log = document_log()

  call begin('check of document 01''s log')
  call fresh_rooms()
  answer = nahui_check(log, p, tables, memory, found)
  call expect(answer%refusal == 0 .and. answer%entry == 0, 'refusal 0')
  call expect(answer%pairs == 1 .and. answer%unprobed == 1, 'one pair, one unprobed')
  call expect(all(found(:4) == [3, 7, 64, 1]), '3 7 64 1')
  call expect(all(found(5:) == untouched), 'the rest of the result room untouched')
  call expect(all(tables(:512) == 0) .and. all(memory(:256) == 0), 'work rooms end at 0')
  call expect(all(tables(513:) == untouched_entry), 'the rest of the tables room untouched')
  call expect(all(memory(257:) == untouched), 'the rest of the memory room untouched')

  call begin('check in exact rooms')
  call fresh_rooms()
  answer = nahui_check(log, p, tables(:512), memory(:256), found)
  call expect(answer%refusal == 0 .and. answer%pairs == 1, 'one pair')
  call expect(all(tables(:512) == 0) .and. all(memory(:256) == 0), 'work rooms end at 0')
  call expect(all(tables(513:) == untouched_entry) .and. all(memory(257:) == untouched), 'nothing else is touched')

  ! Replicate 1 has the draw abcdefgh; 2 has it from its byte 3 on, and in the longer log as its third draw too.
  call begin('a hit inside a draw is no overlap')
  call fresh_rooms()
  written = nahui_log_write(bytes('abcdefgh012abcdefgh34567'), [1, 2], [8, 16], log(:60))
  answer = nahui_check(log(:60), 1_c_int32_t, tables, memory, found)
  call expect(written%refusal == 0 .and. answer%refusal == 0 .and. answer%pairs == 0, 'no pair')
  call expect(all(found == untouched), 'nothing in the result room')
  written = nahui_log_write(bytes('abcdefgh012abcdefgh34567abcdefgh'), [1, 2], [8, 24], log(:68))
  answer = nahui_check(log(:68), 1_c_int32_t, tables, memory, found)
  call expect(written%refusal == 0 .and. answer%refusal == 0 .and. answer%pairs == 1, 'one pair')
  call expect(all(found(:4) == [1, 2, 16, 1]), '1 2 16 1')
  call expect(all(found(5:) == untouched), 'nothing else in the result room')
  log = document_log()

  call begin('refusals of the check')
  call fresh_rooms()
  answer = nahui_check(log(:11), 0_c_int32_t, tables(:0), memory(:0), found(:0))
  call expect(answer%refusal == 10, 'refusal 10')
  answer = nahui_check(log, 513_c_int32_t, tables, memory, found)
  call expect(answer%refusal == 20, 'refusal 20 for 513')
  answer = nahui_check(log, -1_c_int32_t, tables, memory, found)
  call expect(answer%refusal == 20, 'refusal 20 for the greatest number')
  answer = nahui_check(log, p, tables(:511), memory, found)
  call expect(answer%refusal == 4, 'refusal 4, tables room')
  answer = nahui_check(log, p, tables, memory(:255), found)
  call expect(answer%refusal == 4, 'refusal 4, memory room')
  answer = nahui_check(log, p, tables(:511), memory(:255), found(:23))
  call expect(answer%refusal == 4, 'refusal 4 before 5')
  answer = nahui_check(log, p, tables, memory, found(:23))
  call expect(answer%refusal == 5 .and. answer%pairs == 0 .and. answer%unprobed == 0, 'refusal 5')
  call expect(all(tables == untouched_entry), 'tables room untouched')
  call expect(all(memory == untouched) .and. all(found == untouched), 'memory and result room untouched')

  call finish()

contains

  subroutine fresh_rooms()
    tables = untouched_entry
    memory = untouched
    found = untouched
  end subroutine fresh_rooms

end program check
