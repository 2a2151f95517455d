!> images LOG: binds the draws of four images into a log.
program bind_images
  use, intrinsic :: iso_c_binding, only: c_int8_t, c_int32_t, c_double
  use nahuitepol
  implicit none
  integer, parameter :: images = 4, draws = 100
  integer, parameter :: seeds(images) = [11, 12, 13, 12]  ! the fault: image 4 has the seed of image 2
  integer(c_int8_t), parameter :: bytes(*) = [0_c_int8_t]
  real(c_double) :: drawn(draws, images)
  integer(c_int32_t) :: ids(images), lengths(images)
  integer(c_int8_t) :: log(65536)
  type(nahui_written) :: answer
  character(len=4096) :: name
  integer :: image, k, numbers, unit

  if (command_argument_count() /= 1) error stop 'usage: images LOG'
  call random_seed(size=numbers)
  do image = 1, images  ! each round stands for an image with a stream of its own
    call random_seed(put=[(seeds(image), k = 1, numbers)])
    call random_number(drawn(:, image))
    ids(image) = image
    lengths(image) = 8 * draws
  end do
  answer = nahui_log_write(transfer(drawn, bytes), ids, lengths, log)
  if (answer%refusal /= 0) error stop 'the log is refused'
  call get_command_argument(1, name)
  open(newunit=unit, file=name, access='stream', form='unformatted', status='replace')
  write(unit) log(:answer%length)
  print '(a, i0, a)', 'a log of ', answer%length, ' bytes'
end program bind_images
