!> draws NIGHT REPLICATE FILE: writes the first 500 draws of a replicate, 8 bytes each, as it makes them in the first
!> or the second night.
program draws
  use, intrinsic :: iso_fortran_env, only: real64
  implicit none
  character(len=4096) :: night, replicate, file
  real(real64) :: opening(500)
  integer :: unit

  call get_command_argument(1, night)
  call get_command_argument(2, replicate)
  call get_command_argument(3, file)
  select case (night)
  case ('first')
    ! The fault. This is meant to set the images of one run apart; but here each replicate is a run of its own, of
    ! one image, whose number is 1 every time. So all replicates begin with one and the same seed.
    call random_init(repeatable=.true., image_distinct=.true.)
  case ('second')
    call seed_apart(replicate)
  case default
    error stop 'usage: draws first|second REPLICATE FILE'
  end select
  call random_number(opening)
  open (newunit=unit, file=file, access='stream', form='unformatted', status='replace', action='write')
  write (unit) opening
  close (unit)

contains

  !> Gives each replicate a seed of its own.
  subroutine seed_apart(replicate)
    character(len=*), intent(in) :: replicate
    integer, allocatable :: seed(:)
    integer :: number, length, k

    read (replicate, *) number
    call random_seed(size=length)
    seed = [(1000 * number + k, k=1, length)]
    call random_seed(put=seed)
  end subroutine seed_apart

end program draws
