!> Nahuitepol for Fortran: exact search for a probe in a stream, and draw logs, written and checked for overlaps.
!>
!> The functions are those of include/nahuitepol.h, which says what each one promises; an array goes as it is,
!> and its count is taken from its size. Arrays may have size 0. Rooms must overlap neither each other nor the
!> inputs, as Fortran asks of arguments anyway.
!>
!> Each answer has a refusal number; 0 says that the call did its work. On a refusal every room is unchanged and
!> every other number is 0, but for the entry number beside 15, 16 and 17.
!>
!>    1  probe has no bytes
!>    2  probe over 4,096 bytes
!>    3  stream over 16,777,216 bytes
!>    4  a work room is too short for a probe of m bytes (in the check, m is 8p): the room for both tables has
!>       fewer than 2m numbers, or the room for one of them or for the memory fewer than m
!>    5  result room of the check below 4 c (c - 1) numbers, for c replicates
!>   10  log under 12 bytes
!>   11  log over 65,536 bytes (in the writer: it would be)
!>   12  mark wrong
!>   13  directory count not 1 to 64 (in the writer: the number of ids)
!>   14  directory start + 12 count + 12 differs from the log's length
!>   15  id not above the one before
!>   16  block not where the previous one ended (the first: not at byte 0), or last end not the directory start
!>   17  block length no multiple of 8
!>   18  no replicate with this id
!>   20  p not 1 to 512
!>   22  number of block bytes differs from the sum of the lengths
!>   23  output room shorter than the log
!>   31  ids and lengths differ in number
!>
!> Positions, offsets, entries and table indices count from 0, as in C. Fortran has no unsigned integers: an id
!> from 2**31 on comes as a negative number, and nahui_unsigned gives its value. Table entries are at most 4,096,
!> and so never negative.
module nahuitepol
  use, intrinsic :: iso_c_binding, only: c_int8_t, c_int16_t, c_int32_t, c_int64_t, c_size_t
  implicit none
  private

  public :: nahui_suffix, nahui_shift, nahui_tables, nahui_occurrence
  public :: nahui_plain, nahui_remember
  public :: nahui_log_test, nahui_log_find, nahui_log_write
  public :: nahui_check
  public :: nahui_unsigned

  !> The occurrence table of a probe, with an entry for each byte; 256 zeros beside a refusal.
  type, public, bind(c) :: nahui_occurrences
    integer(c_int32_t) :: refusal
    integer(c_int32_t) :: table(0:255)
  end type nahui_occurrences

  !> The answer of a search. A search has no entries: entry is always 0. closest is the greatest number, over the
  !> windows visited, of trailing probe bytes that equal the stream there, and closest_at, from 0, is where the
  !> first window that reached it starts; with no window both are 0.
  type, public, bind(c) :: nahui_searched
    integer(c_int32_t) :: refusal, entry
    integer(c_int64_t) :: occurrences, written, windows, comparisons, closest, closest_at
  end type nahui_searched

  !> The answer of the log test: the number of replicates.
  type, public, bind(c) :: nahui_tested
    integer(c_int32_t) :: refusal, entry, count
  end type nahui_tested

  !> The answer of the lookup: where the block of a replicate starts in the log, from 0, and its bytes.
  type, public, bind(c) :: nahui_found
    integer(c_int32_t) :: refusal, entry, start, length
  end type nahui_found

  !> The answer of the writer: the bytes of the log, from the front of the output room on.
  type, public, bind(c) :: nahui_written
    integer(c_int32_t) :: refusal, entry, length
  end type nahui_written

  !> The answer of the overlap check: overlapping pairs, and owners whose block is too short to probe.
  type, public, bind(c) :: nahui_checked
    integer(c_int32_t) :: refusal, entry, pairs, unprobed
  end type nahui_checked

  interface
    function c_suffix(probe, probe_len, room, room_len) result(refusal) bind(c, name='nahui_suffix')
      import :: c_int8_t, c_int32_t, c_size_t
      integer(c_int8_t), intent(in) :: probe(*)
      integer(c_size_t), value :: probe_len, room_len
      integer(c_int32_t), intent(inout) :: room(*)
      integer(c_int32_t) :: refusal
    end function c_suffix

    function c_shift(probe, probe_len, room, room_len) result(refusal) bind(c, name='nahui_shift')
      import :: c_int8_t, c_int32_t, c_size_t
      integer(c_int8_t), intent(in) :: probe(*)
      integer(c_size_t), value :: probe_len, room_len
      integer(c_int32_t), intent(inout) :: room(*)
      integer(c_int32_t) :: refusal
    end function c_shift

    function c_tables(probe, probe_len, room, room_len) result(refusal) bind(c, name='nahui_tables')
      import :: c_int8_t, c_int16_t, c_int32_t, c_size_t
      integer(c_int8_t), intent(in) :: probe(*)
      integer(c_size_t), value :: probe_len, room_len
      integer(c_int16_t), intent(inout) :: room(*)
      integer(c_int32_t) :: refusal
    end function c_tables

    function c_occurrence(probe, probe_len) result(answer) bind(c, name='nahui_occurrence')
      import :: c_int8_t, c_size_t, nahui_occurrences
      integer(c_int8_t), intent(in) :: probe(*)
      integer(c_size_t), value :: probe_len
      type(nahui_occurrences) :: answer
    end function c_occurrence

    function c_plain(probe, probe_len, stream, stream_len, tables, tables_len, positions, positions_len) &
        result(answer) bind(c, name='nahui_plain')
      import :: c_int8_t, c_int16_t, c_int32_t, c_size_t, nahui_searched
      integer(c_int8_t), intent(in) :: probe(*), stream(*)
      integer(c_size_t), value :: probe_len, stream_len, tables_len, positions_len
      integer(c_int16_t), intent(inout) :: tables(*)
      integer(c_int32_t), intent(inout) :: positions(*)
      type(nahui_searched) :: answer
    end function c_plain

    function c_remember(probe, probe_len, stream, stream_len, tables, tables_len, memory, memory_len, &
        positions, positions_len) result(answer) bind(c, name='nahui_remember')
      import :: c_int8_t, c_int16_t, c_int32_t, c_size_t, nahui_searched
      integer(c_int8_t), intent(in) :: probe(*), stream(*)
      integer(c_size_t), value :: probe_len, stream_len, tables_len, memory_len, positions_len
      integer(c_int16_t), intent(inout) :: tables(*)
      integer(c_int32_t), intent(inout) :: memory(*), positions(*)
      type(nahui_searched) :: answer
    end function c_remember

    function c_log_test(log, log_len) result(answer) bind(c, name='nahui_log_test')
      import :: c_int8_t, c_size_t, nahui_tested
      integer(c_int8_t), intent(in) :: log(*)
      integer(c_size_t), value :: log_len
      type(nahui_tested) :: answer
    end function c_log_test

    function c_log_find(log, log_len, id) result(answer) bind(c, name='nahui_log_find')
      import :: c_int8_t, c_int32_t, c_size_t, nahui_found
      integer(c_int8_t), intent(in) :: log(*)
      integer(c_size_t), value :: log_len
      integer(c_int32_t), value :: id
      type(nahui_found) :: answer
    end function c_log_find

    function c_log_write(blocks, blocks_len, ids, ids_len, lengths, lengths_len, out, out_len) &
        result(answer) bind(c, name='nahui_log_write')
      import :: c_int8_t, c_int32_t, c_size_t, nahui_written
      integer(c_int8_t), intent(in) :: blocks(*)
      integer(c_size_t), value :: blocks_len, ids_len, lengths_len, out_len
      integer(c_int32_t), intent(in) :: ids(*), lengths(*)
      integer(c_int8_t), intent(inout) :: out(*)
      type(nahui_written) :: answer
    end function c_log_write

    function c_check(log, log_len, p, tables, tables_len, memory, memory_len, result_room, result_len) &
        result(answer) bind(c, name='nahui_check')
      import :: c_int8_t, c_int16_t, c_int32_t, c_size_t, nahui_checked
      integer(c_int8_t), intent(in) :: log(*)
      integer(c_size_t), value :: log_len, tables_len, memory_len, result_len
      integer(c_int32_t), value :: p
      integer(c_int16_t), intent(inout) :: tables(*)
      integer(c_int32_t), intent(inout) :: memory(*), result_room(*)
      type(nahui_checked) :: answer
    end function c_check
  end interface

contains

  !> Writes the suffix table of the probe to the front of the room and answers the refusal: 0, 1, 2 or 4.
  function nahui_suffix(probe, room) result(refusal)
    integer(c_int8_t), intent(in), contiguous :: probe(:)
    integer(c_int32_t), intent(inout), contiguous :: room(:)
    integer(c_int32_t) :: refusal

    refusal = c_suffix(probe, size(probe, kind=c_size_t), room, size(room, kind=c_size_t))
  end function nahui_suffix

  !> Writes the shift table of the probe to the front of the room and answers the refusal: 0, 1, 2 or 4.
  function nahui_shift(probe, room) result(refusal)
    integer(c_int8_t), intent(in), contiguous :: probe(:)
    integer(c_int32_t), intent(inout), contiguous :: room(:)
    integer(c_int32_t) :: refusal

    refusal = c_shift(probe, size(probe, kind=c_size_t), room, size(room, kind=c_size_t))
  end function nahui_shift

  !> Writes both tables of the probe to the front of the room, for each index the suffix entry, then the shift
  !> entry, and answers the refusal: 0, 1, 2 or 4. The room needs two numbers for each byte of the probe.
  function nahui_tables(probe, room) result(refusal)
    integer(c_int8_t), intent(in), contiguous :: probe(:)
    integer(c_int16_t), intent(inout), contiguous :: room(:)
    integer(c_int32_t) :: refusal

    refusal = c_tables(probe, size(probe, kind=c_size_t), room, size(room, kind=c_size_t))
  end function nahui_tables

  !> The occurrence table of the probe. The refusal is 0, 1 or 2.
  function nahui_occurrence(probe) result(answer)
    integer(c_int8_t), intent(in), contiguous :: probe(:)
    type(nahui_occurrences) :: answer

    answer = c_occurrence(probe, size(probe, kind=c_size_t))
  end function nahui_occurrence

  !> Searches the stream for the probe by the plain scan. The tables room needs two numbers for each byte of the
  !> probe; the position room takes the first positions as far as it reaches. The refusal is 0 to 4.
  function nahui_plain(probe, stream, tables, positions) result(answer)
    integer(c_int8_t), intent(in), contiguous :: probe(:), stream(:)
    integer(c_int16_t), intent(inout), contiguous :: tables(:)
    integer(c_int32_t), intent(inout), contiguous :: positions(:)
    type(nahui_searched) :: answer

    answer = c_plain(probe, size(probe, kind=c_size_t), stream, size(stream, kind=c_size_t), &
        tables, size(tables, kind=c_size_t), positions, size(positions, kind=c_size_t))
  end function nahui_plain

  !> Searches the stream for the probe by the remembering scan: as nahui_plain, with the same answer but for the
  !> comparisons, which are never more. The memory room needs an entry for each byte of the probe.
  function nahui_remember(probe, stream, tables, memory, positions) result(answer)
    integer(c_int8_t), intent(in), contiguous :: probe(:), stream(:)
    integer(c_int16_t), intent(inout), contiguous :: tables(:)
    integer(c_int32_t), intent(inout), contiguous :: memory(:), positions(:)
    type(nahui_searched) :: answer

    answer = c_remember(probe, size(probe, kind=c_size_t), stream, size(stream, kind=c_size_t), &
        tables, size(tables, kind=c_size_t), memory, size(memory, kind=c_size_t), &
        positions, size(positions, kind=c_size_t))
  end function nahui_remember

  !> Tests a draw log and answers its number of replicates. The refusal is 0 or 10 to 17.
  function nahui_log_test(log) result(answer)
    integer(c_int8_t), intent(in), contiguous :: log(:)
    type(nahui_tested) :: answer

    answer = c_log_test(log, size(log, kind=c_size_t))
  end function nahui_log_test

  !> Looks up the block of the replicate with this id. The refusal is 0 or 10 to 18.
  function nahui_log_find(log, id) result(answer)
    integer(c_int8_t), intent(in), contiguous :: log(:)
    integer(c_int32_t), intent(in) :: id
    type(nahui_found) :: answer

    answer = c_log_find(log, size(log, kind=c_size_t), id)
  end function nahui_log_find

  !> Writes a log to the front of the output room: the blocks, all bytes of which are lent back to back, then the
  !> directory and the trailer that fit them. Entry k has id ids(k) and the next lengths(k) bytes; the ids rise
  !> strictly, as numbers without a sign. The room needs size(blocks) + 12 size(ids) + 12 bytes. The refusal is
  !> 0, 31, 13, 15, 17, 22, 11 or 23.
  function nahui_log_write(blocks, ids, lengths, out) result(answer)
    integer(c_int8_t), intent(in), contiguous :: blocks(:)
    integer(c_int32_t), intent(in), contiguous :: ids(:), lengths(:)
    integer(c_int8_t), intent(inout), contiguous :: out(:)
    type(nahui_written) :: answer

    answer = c_log_write(blocks, size(blocks, kind=c_size_t), ids, size(ids, kind=c_size_t), &
        lengths, size(lengths, kind=c_size_t), out, size(out, kind=c_size_t))
  end function nahui_log_write

  !> Searches every block of the log for the first p draws (8p bytes) of every other one. What occurs inside a
  !> draw, at an offset that is no multiple of 8, does not count. The tables room needs 16p numbers, the memory
  !> room 8p; the result room needs 4 c (c - 1) numbers for c replicates and takes four for each overlapping
  !> pair: owner, searched id, first offset in bytes, occurrences. The refusal is 0, 10 to 17, 20, 4 or 5.
  function nahui_check(log, p, tables, memory, result_room) result(answer)
    integer(c_int8_t), intent(in), contiguous :: log(:)
    integer(c_int32_t), intent(in) :: p
    integer(c_int16_t), intent(inout), contiguous :: tables(:)
    integer(c_int32_t), intent(inout), contiguous :: memory(:), result_room(:)
    type(nahui_checked) :: answer

    answer = c_check(log, size(log, kind=c_size_t), p, tables, size(tables, kind=c_size_t), &
        memory, size(memory, kind=c_size_t), result_room, size(result_room, kind=c_size_t))
  end function nahui_check

  !> The value of a 32-bit number without a sign.
  elemental function nahui_unsigned(number) result(value)
    integer(c_int32_t), intent(in) :: number
    integer(c_int64_t) :: value

    value = modulo(int(number, c_int64_t), 2_c_int64_t**32)
  end function nahui_unsigned

end module nahuitepol
