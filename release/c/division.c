/* What the compiler calls for divisions of 128 bits, where its own library is not linked. */

typedef unsigned __int128 wide;

/* The quotient of two numbers of 128 bits, by long division: shifts by one place need no other function. */
__attribute__((visibility("hidden"))) wide __udivti3(wide number, wide by) {
    wide rest = 0;
    for (int place = 0; place < 128; place++) {
        rest = (rest << 1) | (number >> 127);
        number <<= 1;
        if (rest >= by) {
            rest -= by;
            number |= 1;
        }
    }
    return number;
}
