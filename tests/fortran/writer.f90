!> The writer of logs from Fortran, with known answers.
program writer_calls
  use, intrinsic :: iso_c_binding, only: c_int8_t, c_int32_t
  use nahuitepol
  use support
  implicit none

  integer(c_int8_t), parameter :: untouched_byte = -91_c_int8_t
  integer(c_int32_t), parameter :: ids(*) = [3_c_int32_t, 7_c_int32_t, 9_c_int32_t]
  integer(c_int32_t), parameter :: lengths(*) = [256_c_int32_t, 320_c_int32_t, 40_c_int32_t]
  integer(c_int32_t), parameter :: none(0) = [integer(c_int32_t) ::]

  integer(c_int8_t) :: log(664), out(700)
  type(nahui_written) :: written
  type(nahui_found) :: found
  integer(c_int32_t) :: k

  log = document_log()

  call begin('document 01''s log from its contents')
  out = untouched_byte
  written = nahui_log_write(log(:616), ids, lengths, out)
  call expect(written%refusal == 0 .and. written%entry == 0 .and. written%length == 664, '664 bytes')
  call expect(all(out(:664) == log), 'the log')
  call expect(all(out(665:) == untouched_byte), 'nothing beyond the log')
  out = untouched_byte
  written = nahui_log_write(log(:616), ids, lengths, out(:664))
  call expect(written%refusal == 0 .and. written%length == 664, '664 bytes in a room of 664')
  call expect(all(out(:664) == log), 'the log in a room of 664')

  call begin('ids rise without a sign')
  written = nahui_log_write(log(:616), [0_c_int32_t, 7_c_int32_t, -1_c_int32_t], lengths, out)
  call expect(written%refusal == 0, 'the greatest id')
  found = nahui_log_find(out(:written%length), -1_c_int32_t)
  call expect(found%refusal == 0 .and. found%start == 576 .and. found%length == 40, '40 bytes at 576')

  call begin('refusals of the writer')
  out = untouched_byte
  call expect_refusal(nahui_log_write(log(:616), ids, lengths(:2), out), 31, 0)
  call expect_refusal(nahui_log_write(log(:0), none, none, out), 13, 0)
  call expect_refusal(nahui_log_write(log(:0), [(k, k = 1, 65)], [(0_c_int32_t, k = 1, 65)], out), 13, 0)
  call expect_refusal(nahui_log_write(log(:616), ids([1, 3, 3]), lengths, out), 15, 2)
  call expect_refusal(nahui_log_write(log(:616), [-1_c_int32_t, 7_c_int32_t, 9_c_int32_t], lengths, out), 15, 1)
  call expect_refusal(nahui_log_write(log(:616), ids, lengths + [0, 4, -4], out), 17, 1)
  call expect_refusal(nahui_log_write(log(:615), ids, lengths, out), 22, 0)
  call expect_refusal(nahui_log_write([(0_c_int8_t, k = 1, 65520)], ids(:1), [65520_c_int32_t], out), 11, 0)
  call expect_refusal(nahui_log_write(log(:616), ids, lengths, out(:663)), 23, 0)
  call expect_refusal(nahui_log_write(log(:616), ids, lengths, out(:0)), 23, 0)
  call expect(all(out == untouched_byte), 'nothing written')

  call finish()

contains

  subroutine expect_refusal(answer, number, entry)
    type(nahui_written), intent(in) :: answer
    integer, intent(in) :: number, entry
    character(len=40) :: what

    write(what, '(a, i0, a, i0)') 'refusal ', number, ' at entry ', entry
    call expect(answer%refusal == number .and. answer%entry == entry .and. answer%length == 0, trim(what))
  end subroutine expect_refusal

end program writer_calls
