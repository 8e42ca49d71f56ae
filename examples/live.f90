! Feeds a file of scan records scan by scan, and half way through goes on from a saved state:
!
!     live table.bin bias.bin scans.bin state.bin products.bin
!
! The products of the accepted records are written to products.bin, and the line `record N offset B refused M`
! to standard error for each refused one: the Nth record, counted from 0, which begins at byte B. A shorter rest
! is one record, which is refused with 4. state.bin holds the state after the last record in the end.
!
! Both are new files: where one of them is there already, be it live.c's, the program says so, ends with a status
! that is not 0 and writes nothing. This run begins with a fresh state, so it could only replace the other one.
!
! A file that cannot be opened or read ends a Fortran program by itself, with a message and a status that is not
! 0. A full disk does not: gfortran goes on without a word, so the length of what was written is asked for. A
! station that wants a whole state on the disk after a stop at any moment saves it as live.c does.
program live
    use, intrinsic :: iso_fortran_env, only: error_unit, int64
    use sounder
    implicit none

    integer(sounder_byte) :: first_half(sounder_state_bytes), second_half(sounder_state_bytes)
    integer(sounder_byte), allocatable :: table(:), bias(:)
    integer(int64) :: bytes, records, accepted
    integer :: answer, scans, products

    if (command_argument_count() /= 5) error stop 'usage: live table.bin bias.bin scans.bin state.bin products.bin'
    if (sounder_state_size() /= sounder_state_bytes) error stop 'the library has states of another size'

    call read_file(argument(1), table)
    call read_file(argument(2), bias)
    answer = sounder_fresh(table, bias, first_half)
    if (answer /= 0) then
        ! The table is opened first, so the refusal is the bias file's only where the table is accepted.
        if (sounder_open(table) /= 0) then
            write (error_unit, '(a,i0)') 'the table is refused with ', answer
        else
            write (error_unit, '(a,i0)') 'the bias file is refused with ', answer
        end if
        stop 1
    end if
    ! The state has both.
    deallocate (table, bias)

    open (newunit=scans, file=argument(3), access='stream', form='unformatted', status='old', action='read')
    inquire (unit=scans, size=bytes)
    if (bytes < 0) error stop 'the scans are no file'
    records = (bytes + sounder_record_bytes - 1) / sounder_record_bytes
    call check_new(argument(4))
    call check_new(argument(5))
    open (newunit=products, file=argument(5), access='stream', form='unformatted', status='new', action='write')

    accepted = 0
    call feed(first_half, 0_int64, records / 2 - 1)
    call save_state(argument(4), first_half, 'new')
    call read_state(argument(4), second_half)
    call feed(second_half, records / 2, records - 1)
    call save_state(argument(4), second_half, 'replace')

    close (products)
    close (scans)
    call check_length(argument(5), accepted * sounder_product_bytes)

contains

    function argument(number) result(text)
        integer, intent(in) :: number
        character(:), allocatable :: text
        integer :: length
        call get_command_argument(number, length=length)
        allocate (character(length) :: text)
        call get_command_argument(number, text)
    end function argument

    ! Feeds the records from one number to another, counted from 0, to a state.
    subroutine feed(state, from, to)
        integer(sounder_byte), intent(inout) :: state(sounder_state_bytes)
        integer(int64), intent(in) :: from, to
        integer(sounder_byte) :: record(sounder_record_bytes), product(sounder_product_bytes)
        integer(int64) :: number, offset
        integer :: length
        do number = from, to
            offset = number * sounder_record_bytes
            length = int(min(bytes - offset, int(sounder_record_bytes, int64)))
            read (scans, pos=offset + 1) record(1:length)
            answer = sounder_feed(state, record(1:length), product)
            if (answer == sounder_no_state) error stop 'the bytes are no state'
            if (answer == 0) then
                write (products) product
                flush (products)
                accepted = accepted + 1
            else
                write (error_unit, '(3(a,i0))') 'record ', number, ' offset ', offset, ' refused ', answer
            end if
        end do
    end subroutine feed

    subroutine read_file(name, content)
        character(*), intent(in) :: name
        integer(sounder_byte), allocatable, intent(out) :: content(:)
        integer :: file, length
        open (newunit=file, file=name, access='stream', form='unformatted', status='old', action='read')
        inquire (unit=file, size=length)
        allocate (content(length))
        read (file) content
        close (file)
    end subroutine read_file

    ! Ends the program where a file that it is to make is there.
    subroutine check_new(name)
        character(*), intent(in) :: name
        logical :: there
        inquire (file=name, exist=there)
        if (there) then
            write (error_unit, '(2a)') name, ': this is there already; name another file, or move it away'
            stop 1
        end if
    end subroutine check_new

    subroutine save_state(name, state, status)
        character(*), intent(in) :: name, status
        integer(sounder_byte), intent(in) :: state(sounder_state_bytes)
        integer :: file
        open (newunit=file, file=name, access='stream', form='unformatted', status=status, action='write')
        write (file) state
        close (file)
        call check_length(name, int(sounder_state_bytes, int64))
    end subroutine save_state

    ! Ends the program where a file that was written is not as long as it has to be.
    subroutine check_length(name, length)
        character(*), intent(in) :: name
        integer(int64), intent(in) :: length
        integer(int64) :: written
        inquire (file=name, size=written)
        if (written /= length) then
            write (error_unit, '(2a)') name, ': not all bytes were written'
            stop 1
        end if
    end subroutine check_length

    subroutine read_state(name, state)
        character(*), intent(in) :: name
        integer(sounder_byte), intent(out) :: state(sounder_state_bytes)
        integer :: file
        open (newunit=file, file=name, access='stream', form='unformatted', status='old', action='read')
        read (file) state
        close (file)
    end subroutine read_state

end program live
