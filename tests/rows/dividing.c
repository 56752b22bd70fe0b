/* Functions that tests/rows/instructions.rs must judge rightly: the part `rows` of tests/run says how. */
#include <stddef.h>

#define NOT_INLINED __attribute__((noinline))

NOT_INLINED size_t divides(size_t length, size_t divisor) { return length / divisor; }

/* The compiler makes a multiplication of it. */
NOT_INLINED size_t divides_by_5(size_t length) { return length / 5; }

NOT_INLINED double divides_fractions(double length) { return length / 5.0; }

NOT_INLINED size_t calls_a_division(size_t length) { return divides(length + 1, 5) + 1; }

NOT_INLINED size_t jumps_to_a_division(size_t length) { return calls_a_division(length + 1); }

NOT_INLINED size_t subtracts(size_t length)
{
    size_t rows = 0;
    for (; length >= 5; length -= 5)
        rows += 1 + (length == 327675);
    return rows;
}

NOT_INLINED size_t calls_a_subtraction(size_t length) { return subtracts(length) + 1; }

size_t elsewhere(size_t length);

NOT_INLINED size_t leaves_the_archive(size_t length) { return elsewhere(length) + 1; }

NOT_INLINED size_t calls_what_it_is_given(size_t length, size_t (*given)(size_t)) { return given(length) + 1; }
