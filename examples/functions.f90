! Every function of the module sounder, also with what it refuses, and what each answers:
!
!     functions table.bin bias.bin scans.bin
!
! scans.bin has whole records, and perhaps a shorter rest; the first record is accepted.
program functions
    use, intrinsic :: iso_fortran_env, only: int32
    use sounder
    implicit none

    ! Elements of a product: its number, and the first of its scenes and of its summaries.
    integer, parameter :: number_at = 4, scenes_at = 36, summaries_at = 8487
    integer(sounder_byte), allocatable :: table(:), bias(:), records(:), products(:)
    integer(sounder_byte) :: state(sounder_state_bytes), product(sounder_product_bytes)
    integer(int32), allocatable :: record_lengths(:), product_lengths(:)
    integer, allocatable :: answers(:)
    integer :: answer, again, refused, beside, count, i, left, from
    integer(int32) :: t, units, found

    if (command_argument_count() /= 3) error stop 'usage: functions table.bin bias.bin scans.bin'
    call read_file(1, table)
    call read_file(2, bias)
    call read_file(3, records)
    if (size(records) < sounder_record_bytes) error stop 'a whole record is needed'

    print '(a,i0)', 'version ', sounder_version()
    print '(a,i0)', 'state size ', sounder_state_size()
    print '(a,2(1x,i0))', 'open', sounder_open(table), sounder_open(table(2:))
    print '(a,2(1x,i0))', 'open_bias', sounder_open_bias(bias), sounder_open_bias(bias(2:))

    ! The coefficients of the bench table, and counts that are answered with 0, 10, 9 and 8.
    t = 0
    answer = sounder_thermometer(2000000, 2000000, 3850000, 1500000, 0, 40000, 0, 40158, t)
    print '(a,2(1x,i0))', 'thermometer', answer, t
    answer = sounder_thermometer(2000000, 2000000, 3850000, 1500000, 0, 40000, 0, 65535, t)
    print '(a,2(1x,i0))', 'thermometer', answer, t
    answer = sounder_thermometer(2000000, 2000000, 3850000, 1500000, 0, 40000, 40000, 40158, t)
    print '(a,2(1x,i0))', 'thermometer', answer, t
    answer = sounder_thermometer(-1, 2000000, 3850000, 1500000, 0, 40000, 0, 40158, t)
    print '(a,2(1x,i0))', 'thermometer', answer, t

    ! Scan by scan: a refused bias file, then a state that is too short, which is sounder_no_state; and a scan is
    ! accepted once.
    refused = sounder_fresh(table, bias(2:), state(2:))
    answer = sounder_fresh(table, bias, state(2:))
    again = sounder_fresh(table, bias, state)
    print '(a,3(1x,i0))', 'fresh', refused, answer, again
    answer = sounder_feed(state(2:), records(:sounder_record_bytes), product)
    print '(a,1x,i0)', 'feed', answer
    answer = sounder_feed(state, records(:sounder_record_bytes), product(2:))
    print '(a,1x,i0)', 'feed', answer
    answer = sounder_feed(state, records(:sounder_record_bytes), product)
    again = sounder_feed(state, records(:sounder_record_bytes), product)
    print '(a,2(1x,i0))', 'feed', answer, again
    call print_product(product)

    ! All records in one call; a last feed has no record, and its answer is sounder_not_fed. A refused bias file
    ! feeds none.
    count = (size(records) + sounder_record_bytes - 1) / sounder_record_bytes
    allocate (record_lengths(count), product_lengths(count), answers(count + 1))
    allocate (products(count * sounder_product_bytes))
    do i = 1, count
        left = size(records) - (i - 1) * sounder_record_bytes
        record_lengths(i) = min(left, sounder_record_bytes)
        product_lengths(i) = sounder_product_bytes
    end do
    refused = sounder_feed_all(table, bias(2:), records, record_lengths, products, product_lengths, answers)
    answer = sounder_feed_all(table, bias, records, record_lengths, products, product_lengths, answers)
    print '(a,*(1x,i0))', 'feed_all', refused, answer, answers
    do i = 1, count
        if (answers(i) == 0) then
            call print_product(products((i - 1) * sounder_product_bytes + 1:i * sounder_product_bytes))
        end if
    end do

    ! The count behind a temperature: a state that is too short, a channel that is not there, no scan accepted.
    bias(4:) = 0
    again = sounder_fresh(table, bias, state)
    found = 0
    answer = sounder_count_behind(state(2:), 23, 1, found)
    refused = sounder_count_behind(state, 23, 1, found)
    again = sounder_count_behind(state, 1, 1, found)
    print '(a,4(1x,i0))', 'count_behind', answer, refused, again, found
    ! Scan by scan: with a bias file of zeros a scene is T / 4096 kelvin. So the count behind the T of channel 1 at
    ! position 1 is the earth count there, and no count has one unit more. A channel with a flag is answered with 12,
    ! and a refused record leaves the answers as they were.
    do i = 1, count
        from = (i - 1) * sounder_record_bytes
        again = sounder_feed(state, records(from + 1:from + record_lengths(i)), product)
        units = nint(4096 * sounder_kelvin(product(scenes_at:scenes_at + 3)))
        answer = sounder_count_behind(state, 1, units, found)
        beside = sounder_count_behind(state, 1, units + 1, found)
        print '(a,3(1x,i0))', 'count_behind', answer, found, beside
    end do
    deallocate (table, bias, records, products, record_lengths, product_lengths, answers)

contains

    ! The number of a product, how many of its scenes are delivered, and the first and the last scene in kelvin.
    subroutine print_product(bytes)
        integer(sounder_byte), intent(in) :: bytes(:)
        integer :: channel, at, delivered
        delivered = 0
        do channel = 1, 22
            at = summaries_at + 10 * (channel - 1)
            delivered = delivered + int(sounder_number(bytes(at:at + 1)))
        end do
        at = scenes_at + 384 * 21 + 4 * 95
        print '(a,i0,a,i0,2(a,f0.4))', &
            'scan ', sounder_number(bytes(number_at:number_at + 3)), ' delivered ', delivered, &
            ' first ', sounder_kelvin(bytes(scenes_at:scenes_at + 3)), ' last ', sounder_kelvin(bytes(at:at + 3))
    end subroutine print_product

    ! The bytes of the file that an argument names.
    subroutine read_file(number, bytes)
        integer, intent(in) :: number
        integer(sounder_byte), allocatable, intent(out) :: bytes(:)
        character(4096) :: name
        integer :: file, length
        call get_command_argument(number, name)
        open (newunit=file, file=name, access='stream', form='unformatted', status='old', action='read')
        inquire (unit=file, size=length)
        allocate (bytes(length))
        read (file) bytes
        close (file)
    end subroutine read_file

end program functions
