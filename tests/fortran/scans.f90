!> Both searches from Fortran, with known answers.
program scans
  use, intrinsic :: iso_c_binding, only: c_int8_t, c_int16_t, c_int32_t
  use nahuitepol
  use support
  implicit none

  integer(c_int16_t) :: tables(9)
  integer(c_int32_t) :: memory(5), positions(3)
  type(nahui_searched) :: answer

  call begin('plain scan of abab in ababab')
  call fresh_rooms()
  answer = nahui_plain(bytes('abab'), bytes('ababab'), tables, positions)
  call expect(answer%refusal == 0 .and. answer%entry == 0, 'refusal 0')
  call expect(answer%occurrences == 2 .and. answer%written == 2, '2 occurrences, 2 written')
  call expect(answer%windows == 2 .and. answer%comparisons == 8, '2 windows, 8 comparisons')
  call expect(answer%closest == 4 .and. answer%closest_at == 0, 'closest 4 at 0')
  call expect_pairs()
  call expect(all(memory == untouched), 'memory room untouched')
  call expect(all(positions == [0, 2, untouched]), 'positions 0 2')

  call begin('remembering scan of abab in ababab')
  call fresh_rooms()
  answer = nahui_remember(bytes('abab'), bytes('ababab'), tables(:8), memory, positions(:1))
  call expect(answer%refusal == 0 .and. answer%entry == 0, 'refusal 0')
  call expect(answer%occurrences == 2 .and. answer%written == 1, '2 occurrences, 1 written')
  call expect(answer%windows == 2 .and. answer%comparisons == 6, '2 windows, 6 comparisons')
  call expect(answer%closest == 4 .and. answer%closest_at == 0, 'closest 4 at 0')
  call expect_pairs()
  call expect(all(memory == [0, 0, 0, 0, untouched]), 'four zeros in the memory room')
  call expect(all(positions == [0, untouched, untouched]), 'position 0')

  call begin('streams shorter than the probe')
  call fresh_rooms()
  answer = nahui_plain(bytes('abab'), bytes('aba'), tables(:8), positions)
  call expect(answer%refusal == 0 .and. all_zero(answer), 'plain refusal 0, six zeros')
  call expect_pairs()
  tables = untouched_entry
  answer = nahui_remember(bytes('abab'), bytes(''), tables, memory, positions)
  call expect(answer%refusal == 0 .and. all_zero(answer), 'remembering refusal 0, six zeros')
  call expect_pairs()
  call expect(all(memory == [0, 0, 0, 0, untouched]), 'four zeros in the memory room')
  call expect(all(positions == untouched), 'no position')

  call begin('how close the scans come to probes that do not occur')
  call expect_close('abc', 'bc', 0, 0)
  call expect_close('abc', 'xxxxxxx', 0, 0)
  call expect_close('abc', 'xbc', 2, 0)
  call expect_close('abc', 'abbbc', 2, 2)
  call expect_close('random', 'a wisdom, a freedom', 3, 2)  ! and once more at 13
  call expect_close('aaa', 'abaa', 1, 0)  ! 2 at offset 1, which is no window
  call expect_close('ba', 'acaa', 1, 2)  ! 1 at offset 1, which is no window

  call begin('how close the scans come to probes that occur')
  call expect_close('abc', 'abcabc', 3, 0)
  call expect_close('abc', 'xxxabc', 3, 3)
  call expect_close('aaa', 'baaaa', 3, 1)

  ! By the lengths that the memory takes the remembering scan would come as close as 2 at 0, 4 at 4 and 3 at 6.
  call begin('the closest window stops without a comparison')
  call expect_close('baaa', 'acaaaa', 3, 2)
  call expect_close('babaaa', 'aaabaabaaa', 5, 4)
  call expect_close('baaa', 'acaaaacaaa', 3, 2)

  call begin('refusals of the searches')
  call fresh_rooms()
  answer = nahui_plain(bytes(''), bytes('ab'), tables, positions)
  call expect(answer%refusal == 1 .and. all_zero(answer), 'plain refusal 1')
  answer = nahui_remember(bytes(''), bytes(''), tables, memory, positions(:0))
  call expect(answer%refusal == 1 .and. all_zero(answer), 'remembering refusal 1')
  answer = nahui_plain(bytes('abab'), bytes('ababab'), tables(:7), positions)
  call expect(answer%refusal == 4 .and. all_zero(answer), 'plain refusal 4')
  answer = nahui_remember(bytes('abab'), bytes('ababab'), tables(:7), memory, positions)
  call expect(answer%refusal == 4 .and. all_zero(answer), 'remembering refusal 4, tables room')
  answer = nahui_remember(bytes('abab'), bytes('ababab'), tables, memory(:3), positions)
  call expect(answer%refusal == 4 .and. all_zero(answer), 'remembering refusal 4, memory room')
  answer = nahui_remember(bytes('abab'), bytes('ababab'), tables(:7), memory(:3), positions)
  call expect(answer%refusal == 4 .and. all_zero(answer), 'remembering refusal 4, both rooms')
  call expect(all(tables == untouched_entry), 'tables room untouched')
  call expect(all([memory, positions] == untouched), 'memory and position room untouched')

  call finish()

contains

  subroutine fresh_rooms()
    tables = untouched_entry
    memory = untouched
    positions = untouched
  end subroutine fresh_rooms

  !> Every number beside the refusal is 0.
  pure function all_zero(answer)
    type(nahui_searched), intent(in) :: answer
    logical :: all_zero

    all_zero = answer%entry == 0 .and. all([answer%occurrences, answer%written, answer%windows, &
        answer%comparisons, answer%closest, answer%closest_at] == 0)
  end function all_zero

  !> Both scans come as close as this, there.
  subroutine expect_close(probe, stream, closest, closest_at)
    character(len=*), intent(in) :: probe, stream
    integer, intent(in) :: closest, closest_at
    integer(c_int16_t) :: tables(2 * len(probe))
    integer(c_int32_t) :: memory(len(probe)), positions(0)
    type(nahui_searched) :: plain, remember

    plain = nahui_plain(bytes(probe), bytes(stream), tables, positions)
    remember = nahui_remember(bytes(probe), bytes(stream), tables, memory, positions)
    call expect(all([plain%closest, plain%closest_at] == [closest, closest_at]), &
        'plain scan of ' // probe // ' in ' // stream)
    call expect(all([remember%closest, remember%closest_at] == [closest, closest_at]), &
        'remembering scan of ' // probe // ' in ' // stream)
  end subroutine expect_close

  subroutine expect_pairs()
    call expect(all(tables(:8) == [0, 2, 2, 2, 0, 4, 4, 1]), 'the pairs of both tables')
    call expect(tables(9) == untouched_entry, 'the rest of the tables room untouched')
  end subroutine expect_pairs

end program scans
