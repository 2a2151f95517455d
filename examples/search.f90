!> Do the first 32 draws of one replicate stand among the draws of another?
program search
  use, intrinsic :: iso_c_binding, only: c_int8_t, c_int16_t, c_int32_t, c_double
  use nahuitepol
  implicit none
  integer(c_int8_t), parameter :: bytes(*) = [0_c_int8_t]
  real(c_double) :: one(40), other(100)
  integer(c_int16_t) :: tables(512)
  integer(c_int32_t) :: memory(256), positions(8)
  type(nahui_searched) :: answer

  call random_number(other)
  one = other(21:60)  ! the fault: one replicate goes on in the other's stream
  answer = nahui_remember(transfer(one(:32), bytes), transfer(other, bytes), tables, memory, positions)
  if (answer%refusal /= 0) error stop 'the search is refused'
  print '(a, i0)', 'places: ', answer%occurrences
  if (answer%occurrences > 0) then
    print '(a, i0)', 'the first is at draw ', positions(1) / 8 + 1
  else
    print '(a, i0, a)', 'trailing bytes equal: up to ', answer%closest, ' of 256'
  end if
end program search
