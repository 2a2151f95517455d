!> The table calls from Fortran, with known answers.
program tables
  use, intrinsic :: iso_c_binding, only: c_int8_t, c_int16_t, c_int32_t
  use nahuitepol
  use support
  implicit none

  integer(c_int8_t), parameter :: no_bytes(0) = [integer(c_int8_t) ::]
  integer(c_int32_t) :: room(6), expected(0:255)
  integer(c_int16_t) :: pairs(10), long_pairs(8193)
  type(nahui_occurrences) :: answer
  integer :: k

  call begin('suffix table of abab')
  room = untouched
  call expect(nahui_suffix(bytes('abab'), room(:5)) == 0, 'refusal 0')
  call expect(all(room == [0, 2, 0, 4, untouched, untouched]), '0 2 0 4 and the rest untouched')

  call begin('shift table of abab')
  room = untouched
  call expect(nahui_shift(bytes('abab'), room(:4)) == 0, 'refusal 0')
  call expect(all(room == [2, 2, 4, 1, untouched, untouched]), '2 2 4 1 and the rest untouched')

  call begin('pairs of both tables of abab')
  pairs = untouched_entry
  call expect(nahui_tables(bytes('abab'), pairs(:8)) == 0, 'refusal 0')
  call expect(all(pairs(:8) == [0, 2, 2, 2, 0, 4, 4, 1]), '0 2 2 2 0 4 4 1')
  call expect(all(pairs(9:) == untouched_entry), 'the rest untouched')
  pairs = untouched_entry
  call expect(nahui_tables(bytes('abab'), pairs) == 0, 'refusal 0 with a longer room')
  call expect(all(pairs(:8:2) == [0, 2, 0, 4]) .and. all(pairs(2:8:2) == [2, 2, 4, 1]), 'the tables, taken apart')
  call expect(all(pairs(9:) == untouched_entry), 'the rest of the longer room untouched')

  call begin('pairs of 4096 bytes')
  long_pairs = untouched_entry
  call expect(nahui_tables(bytes(repeat('a', 4096)), long_pairs(:8191)) == 4, 'refusal 4 with 8191 numbers')
  call expect(all(long_pairs == untouched_entry), 'all untouched')
  call expect(nahui_tables(bytes(repeat('a', 4096)), long_pairs) == 0, 'refusal 0')
  call expect(all(long_pairs(:8192) == [(k, k, k = 1, 4096)]), '1 1 2 2 up to 4096 4096')
  call expect(long_pairs(8193) == untouched_entry, 'the rest untouched')

  call begin('occurrence table of abab')
  expected = 4
  expected(iachar('a')) = 1
  expected(iachar('b')) = 2
  answer = nahui_occurrence(bytes('abab'))
  call expect(answer%refusal == 0, 'refusal 0')
  call expect(all(answer%table == expected), 'a 1, b 2, others 4')

  call begin('refusals of the table calls')
  room = untouched
  answer = nahui_occurrence(no_bytes)
  call expect(answer%refusal == 1, 'refusal 1')
  call expect(all(answer%table == 0), '256 zeros')
  call expect(nahui_suffix(no_bytes, room) == 1, 'suffix refusal 1')
  call expect(nahui_shift(no_bytes, room(:0)) == 1, 'shift refusal 1')
  call expect(nahui_suffix(bytes(repeat('a', 4097)), room) == 2, 'suffix refusal 2')
  call expect(nahui_shift(bytes(repeat('a', 4097)), room) == 2, 'shift refusal 2')
  call expect(nahui_suffix(bytes('abab'), room(:3)) == 4, 'suffix refusal 4')
  call expect(nahui_shift(bytes('abab'), room(:3)) == 4, 'shift refusal 4')
  call expect(all(room == untouched), 'all untouched')

  call begin('refusals of the pairs')
  pairs = untouched_entry
  call expect(nahui_tables(no_bytes, pairs) == 1, 'refusal 1')
  call expect(nahui_tables(no_bytes, pairs(:0)) == 1, 'refusal 1 without a room')
  call expect(nahui_tables(bytes(repeat('a', 4097)), pairs) == 2, 'refusal 2')
  call expect(nahui_tables(bytes('abab'), pairs(:7)) == 4, 'refusal 4 with 7 numbers')
  call expect(nahui_tables(bytes('abab'), pairs(:4)) == 4, 'refusal 4 with 4 numbers')
  call expect(nahui_tables(bytes('abab'), pairs(:0)) == 4, 'refusal 4 without a room')
  call expect(all(pairs == untouched_entry), 'all untouched')

  call finish()
end program tables
