! The sounder calibrator for Fortran 2008: raw counts of a microwave sounder become brightness temperatures.
! Compile this file with the program and link with libstation.a or libstation.so, which `make lib` builds and
! `make install` installs (x86-64 Linux).
!
! The functions are those of sounder.h, which says what each answers and writes; docs/RULES.md has the formats
! and all rules. An array is passed as it is, or a part of it, as in records(1:4648): its size is the count
! that C asks for, and it may be empty. What is written must not overlap anything else that the same call is
! given, which Fortran asks of arguments anyway.
!
! Bytes are integer(sounder_byte), so that a byte from 128 to 255 is a number from -128 to -1. Answers are
! default integers from 0 to 255, also in lists, so that 253 is sounder_no_count, 254 is sounder_no_state and 255
! is sounder_not_fed. sounder_number and sounder_kelvin read the numbers of a format. Offsets in docs/RULES.md
! count from 0: what stands at 35 there is element 36 of an array here.
module sounder
    use, intrinsic :: iso_c_binding, only: c_float, c_int8_t, c_int16_t, c_int32_t, c_int64_t, c_size_t
    implicit none
    private

    public :: sounder_open, sounder_open_bias, sounder_thermometer, sounder_feed_all
    public :: sounder_state_size, sounder_fresh, sounder_feed, sounder_count_behind, sounder_version
    public :: sounder_number, sounder_kelvin

    ! The kind of a byte.
    integer, parameter, public :: sounder_byte = c_int8_t

    ! The version of this module: 10000 * major + 100 * minor + patch.
    integer, parameter, public :: sounder_version_number = 60100

    integer, parameter, public :: sounder_table_bytes = 1404
    integer, parameter, public :: sounder_bias_bytes = 8451
    integer, parameter, public :: sounder_record_bytes = 4648
    integer, parameter, public :: sounder_product_bytes = 8706
    ! What sounder_state_size gives.
    integer, parameter, public :: sounder_state_bytes = 12576
    ! The answer of sounder_count_behind where no count fits.
    integer, parameter, public :: sounder_no_count = 253
    ! The answer where the bytes are no state, or where a state has no room.
    integer, parameter, public :: sounder_no_state = 254
    ! In answers of sounder_feed_all: a feed that was not fed, since a length or bytes were missing.
    integer, parameter, public :: sounder_not_fed = 255

    interface
        ! The version of the library, in the form of sounder_version_number. A program serves with every library
        ! of the same major version that is not older than the module that it was compiled with.
        function sounder_version() bind(c, name='sounder_version') result(version)
            import :: c_int32_t
            integer(c_int32_t) :: version
        end function sounder_version

        ! How many bytes a state has: sounder_state_bytes.
        function sounder_state_size() bind(c, name='sounder_state_size') result(bytes)
            import :: c_size_t
            integer(c_size_t) :: bytes
        end function sounder_state_size
    end interface

    ! The functions as C has them: sizes by value, answers as bytes.
    interface
        function c_open(table, table_len) bind(c, name='sounder_open') result(answer)
            import :: c_int8_t, c_size_t
            integer(c_int8_t), intent(in) :: table(*)
            integer(c_size_t), value :: table_len
            integer(c_int8_t) :: answer
        end function c_open

        function c_open_bias(bias, bias_len) bind(c, name='sounder_open_bias') result(answer)
            import :: c_int8_t, c_size_t
            integer(c_int8_t), intent(in) :: bias(*)
            integer(c_size_t), value :: bias_len
            integer(c_int8_t) :: answer
        end function c_open_bias

        function c_thermometer(r_pam, r0, alpha, delta, beta, pam, offset, count, t) &
                bind(c, name='sounder_thermometer') result(answer)
            import :: c_int8_t, c_int16_t, c_int32_t
            integer(c_int32_t), value :: r_pam, r0, alpha, delta, beta
            integer(c_int16_t), value :: pam, offset, count
            integer(c_int32_t), intent(inout) :: t
            integer(c_int8_t) :: answer
        end function c_thermometer

        function c_feed_all(table, table_len, bias, bias_len, records, records_len, record_lengths, record_count, &
                buffers, buffers_len, buffer_lengths, buffer_count, answers, answer_count) &
                bind(c, name='sounder_feed_all') result(answer)
            import :: c_int8_t, c_int32_t, c_size_t
            integer(c_int8_t), intent(in) :: table(*), bias(*), records(*)
            integer(c_int32_t), intent(in) :: record_lengths(*), buffer_lengths(*)
            integer(c_int8_t), intent(inout) :: buffers(*), answers(*)
            integer(c_size_t), value :: table_len, bias_len, records_len, record_count
            integer(c_size_t), value :: buffers_len, buffer_count, answer_count
            integer(c_int8_t) :: answer
        end function c_feed_all

        function c_fresh(table, table_len, bias, bias_len, state, state_len) &
                bind(c, name='sounder_fresh') result(answer)
            import :: c_int8_t, c_size_t
            integer(c_int8_t), intent(in) :: table(*), bias(*)
            integer(c_int8_t), intent(inout) :: state(*)
            integer(c_size_t), value :: table_len, bias_len, state_len
            integer(c_int8_t) :: answer
        end function c_fresh

        function c_feed(state, state_len, record, record_len, buffer, buffer_len) &
                bind(c, name='sounder_feed') result(answer)
            import :: c_int8_t, c_size_t
            integer(c_int8_t), intent(inout) :: state(*), buffer(*)
            integer(c_int8_t), intent(in) :: record(*)
            integer(c_size_t), value :: state_len, record_len, buffer_len
            integer(c_int8_t) :: answer
        end function c_feed

        function c_count_behind(state, state_len, channel, wanted, count) &
                bind(c, name='sounder_count_behind') result(answer)
            import :: c_int8_t, c_int16_t, c_int32_t, c_size_t
            integer(c_int8_t), intent(in) :: state(*)
            integer(c_size_t), value :: state_len
            integer(c_int32_t), value :: channel, wanted
            integer(c_int16_t), intent(inout) :: count
            integer(c_int8_t) :: answer
        end function c_count_behind
    end interface

contains

    ! Opens a table: 0 if it is accepted, or 1 (its length), 2 (a tag or length in it), 3 (a value or sum outside
    ! its range).
    function sounder_open(table) result(answer)
        integer(c_int8_t), intent(in), contiguous :: table(:)
        integer :: answer
        answer = unsigned(c_open(table, size(table, kind=c_size_t)))
    end function sounder_open

    ! Opens a bias file, which has the scan bias of each channel and position: 0 if it is accepted, or 1 (its
    ! length), 2 (the tag or length in it), 3 (a c0 outside its range). A file of zeros behind the first three bytes
    ! changes no temperature.
    function sounder_open_bias(bias) result(answer)
        integer(c_int8_t), intent(in), contiguous :: bias(:)
        integer :: answer
        answer = unsigned(c_open_bias(bias, size(bias, kind=c_size_t)))
    end function sounder_open_bias

    ! One thermometer, from the table's values and the record's counts: 0 and, in t, the temperature in units of
    ! 1/4096 degree Celsius; or 8 (R_PAM or a coefficient outside its range), 9 (pam not above offset), 10 (no
    ! temperature for the count), and t stays as it was. The three counts are from 0 to 65,535; of another number
    ! the lowest 16 bits are taken, as C does. A number below 0 of the other five is outside every range.
    function sounder_thermometer(r_pam, r0, alpha, delta, beta, pam, offset, count, t) result(answer)
        integer(c_int32_t), intent(in) :: r_pam, r0, alpha, delta, beta, pam, offset, count
        integer(c_int32_t), intent(inout) :: t
        integer :: answer
        answer = unsigned(c_thermometer(r_pam, r0, alpha, delta, beta, low_bits(pam), low_bits(offset), &
            low_bits(count), t))
    end function sounder_thermometer

    ! Opens the table and the bias file and feeds a fresh calibrator a list of records: 0, or the table's refusal
    ! (1 to 3), then the bias file's (1 to 3), which write nothing. sounder_open tells whether it is the table's.
    ! Feed i takes the next record_lengths(i) bytes of records and the next buffer_lengths(i) bytes of buffers;
    ! answers(i) is 0, and the product stands at the front of its buffer, or 4 to 7, or sounder_not_fed where the
    ! lengths or the bytes have ended.
    function sounder_feed_all(table, bias, records, record_lengths, buffers, buffer_lengths, answers) result(answer)
        integer(c_int8_t), intent(in), contiguous :: table(:), bias(:), records(:)
        integer(c_int32_t), intent(in), contiguous :: record_lengths(:), buffer_lengths(:)
        integer(c_int8_t), intent(inout), contiguous :: buffers(:)
        integer, intent(inout) :: answers(:)
        integer :: answer
        integer(c_int8_t), allocatable :: bytes(:)
        allocate (bytes(size(answers)))
        answer = unsigned(c_feed_all(table, size(table, kind=c_size_t), bias, size(bias, kind=c_size_t), &
            records, size(records, kind=c_size_t), record_lengths, size(record_lengths, kind=c_size_t), &
            buffers, size(buffers, kind=c_size_t), buffer_lengths, size(buffer_lengths, kind=c_size_t), &
            bytes, size(bytes, kind=c_size_t)))
        if (answer == 0) answers = unsigned(bytes)
    end function sounder_feed_all

    ! Opens the table and the bias file and writes the state of a fresh calibrator: 0; or the table's refusal
    ! (1 to 3), then the bias file's (1 to 3), then sounder_no_state where state has fewer than sounder_state_bytes
    ! elements. A refusal writes nothing. The table and the bias file are in the state, and are not needed again.
    function sounder_fresh(table, bias, state) result(answer)
        integer(c_int8_t), intent(in), contiguous :: table(:), bias(:)
        integer(c_int8_t), intent(inout), contiguous :: state(:)
        integer :: answer
        answer = unsigned(c_fresh(table, size(table, kind=c_size_t), bias, size(bias, kind=c_size_t), &
            state, size(state, kind=c_size_t)))
    end function sounder_fresh

    ! Feeds one record to the calibrator of a state: 0, and the product stands at the front of buffer and the
    ! calibrator after it in state; or sounder_no_state, then 4 (the record's length), 5 (a tag or length in it),
    ! 6 (its number isn't above the last accepted one), 7 (the buffer is too short). A refusal writes nothing.
    function sounder_feed(state, record, buffer) result(answer)
        integer(c_int8_t), intent(inout), contiguous :: state(:)
        integer(c_int8_t), intent(in), contiguous :: record(:)
        integer(c_int8_t), intent(inout), contiguous :: buffer(:)
        integer :: answer
        answer = unsigned(c_feed(state, size(state, kind=c_size_t), record, size(record, kind=c_size_t), &
            buffer, size(buffer, kind=c_size_t)))
    end function sounder_feed

    ! The count behind a temperature, by the means, the flags and the shelf temperatures of the last accepted scan: 0
    ! and, in count, the count from 0 to 65,535 whose scene in this channel, counted from 1, is delivered with just
    ! the temperature wanted, in units of 1/4096 K before scan bias; or sounder_no_state, then 11 (channel isn't 1 to
    ! 22), 12 (no scan was accepted, or the channel's flag in the last one isn't 0), sounder_no_count where no count
    ! fits, and count stays as it was. A channel below 0 is answered with 11, and no count fits a wanted below 0.
    function sounder_count_behind(state, channel, wanted, count) result(answer)
        integer(c_int8_t), intent(in), contiguous :: state(:)
        integer(c_int32_t), intent(in) :: channel, wanted
        integer(c_int32_t), intent(inout) :: count
        integer :: answer
        integer(c_int16_t) :: bits
        bits = 0
        answer = unsigned(c_count_behind(state, size(state, kind=c_size_t), channel, wanted, bits))
        if (answer == 0) count = iand(int(bits, c_int32_t), 65535_c_int32_t)
    end function sounder_count_behind

    ! The number that one to four bytes stand for, the most significant first and without a sign: a flag, a
    ! count (u16) or a scan number (u32), for instance sounder_number(product(4:7)).
    pure function sounder_number(bytes) result(number)
        integer(c_int8_t), intent(in) :: bytes(:)
        integer(c_int64_t) :: number
        integer :: i
        number = 0
        do i = 1, size(bytes)
            number = 256 * number + unsigned(bytes(i))
        end do
    end function sounder_number

    ! The temperature in kelvin, or the mark, that four bytes of a product stand for (f32). The scene of channel
    ! c at position i, both counted from 1, is sounder_kelvin(product(k:k + 3)) with
    ! k = 36 + 384 * (c - 1) + 4 * (i - 1).
    pure function sounder_kelvin(bytes) result(kelvin)
        integer(c_int8_t), intent(in) :: bytes(4)
        real(c_float) :: kelvin
        integer(c_int64_t) :: bits
        bits = sounder_number(bytes)
        if (bits >= 2_c_int64_t**31) bits = bits - 2_c_int64_t**32
        kelvin = transfer(int(bits, c_int32_t), kelvin)
    end function sounder_kelvin

    ! A byte as a number from 0 to 255.
    elemental function unsigned(byte) result(number)
        integer(c_int8_t), intent(in) :: byte
        integer :: number
        number = iand(int(byte), 255)
    end function unsigned

    ! The lowest 16 bits of a number, as C takes them for a u16; from 32,768 on they have a sign in Fortran.
    elemental function low_bits(number) result(bits)
        integer(c_int32_t), intent(in) :: number
        integer(c_int16_t) :: bits
        integer(c_int32_t) :: low
        low = iand(number, 65535_c_int32_t)
        if (low >= 32768) low = low - 65536
        bits = int(low, c_int16_t)
    end function low_bits

end module sounder
