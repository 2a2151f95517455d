!> The log test and the lookup from Fortran, with known answers.
program log_calls
  use, intrinsic :: iso_c_binding, only: c_int8_t, c_int32_t, c_int64_t
  use nahuitepol
  use support
  implicit none

  integer(c_int8_t) :: log(664)
  type(nahui_tested) :: tested
  type(nahui_found) :: found

  log = document_log()

  call begin('test of document 01''s log')
  tested = nahui_log_test(log)
  call expect(tested%refusal == 0 .and. tested%entry == 0 .and. tested%count == 3, 'three replicates')

  call begin('lookups in document 01''s log')
  found = nahui_log_find(log, 7_c_int32_t)
  call expect(found%refusal == 0 .and. found%start == 256 .and. found%length == 320, '7 at 256, 320 bytes')
  found = nahui_log_find(log, 9_c_int32_t)
  call expect(found%refusal == 0 .and. found%start == 576 .and. found%length == 40, '9 at 576, 40 bytes')
  found = nahui_log_find(log, -1_c_int32_t)
  call expect(found%refusal == 18 .and. found%entry == 0 .and. found%length == 0, 'refusal 18')

  call begin('refusals of the log test')
  tested = nahui_log_test(log(:0))
  call expect(tested%refusal == 10 .and. tested%entry == 0, 'refusal 10')
  tested = nahui_log_test(log(:663))
  call expect(tested%refusal == 12 .and. tested%entry == 0, 'refusal 12')
  log(616 + 12 + 1) = 3
  tested = nahui_log_test(log)
  call expect(tested%refusal == 15 .and. tested%entry == 1 .and. tested%count == 0, 'refusal 15 at entry 1')
  found = nahui_log_find(log, 3_c_int32_t)
  call expect(found%refusal == 15 .and. found%entry == 1, 'lookup refusal 15 at entry 1')

  call begin('numbers without a sign')
  call expect(nahui_unsigned(7_c_int32_t) == 7, '7')
  call expect(nahui_unsigned(huge(1_c_int32_t)) == 2147483647_c_int64_t, '2147483647')
  call expect(nahui_unsigned(-huge(1_c_int32_t)) == 2147483649_c_int64_t, '2147483649')
  call expect(nahui_unsigned(-1_c_int32_t) == 4294967295_c_int64_t, '4294967295')

  call finish()
end program log_calls
