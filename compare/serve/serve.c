/*
 * The proved library as a program, for machines that cannot link it: takes requests from the standard
 * input until that ends, and writes an answer to each to the standard output.
 *
 * REQUEST. Eight numbers of 4 bytes: the operation, a cell's type code, how many bytes stand around a
 * slice, how many slices there are, and four lengths of slices. Then the slices as tanvelis.h orders
 * them, each between the bytes around it, as many before it as behind it.
 *
 * ANSWER. Six numbers of 8 bytes: how many the library gave, those, and zeros. Then the slices again, as
 * they are after the call, with all the bytes around them.
 *
 * Numbers are little-endian. HAS_check and so on are defined for the operations that the library has.
 */
#include "tanvelis.h"

long read(int file, void *bytes, size_t most);
long write(int file, const void *bytes, size_t most);
void *memmove(void *to, const void *from, size_t length);
_Noreturn void exit(int status);

enum { CHECK, FIND, NORMALISE, SHRED, REBUILD, CELL, BOX, JUDGE };
enum { ROOM = 1 << 22 };

struct request {
    uint32_t operation, code, around, slices, lengths[4];
};

struct answer {
    uint64_t count, words[5];
};

struct slice {
    uint8_t *bytes;
    size_t length;
};

static uint8_t input[ROOM], output[1 << 16];
static size_t input_start, input_end, output_end;

static void send(const uint8_t *bytes, size_t length)
{
    while (length > 0) {
        long done = write(1, bytes, length);
        if (done <= 0)
            exit(2);
        bytes += done;
        length -= (size_t)done;
    }
}

/* Writes all that waits. */
static void flush(void)
{
    send(output, output_end);
    output_end = 0;
}

/* Has the bytes written, at once if they are many. */
static void put(const void *bytes, size_t length)
{
    if (sizeof output - output_end < length)
        flush();
    if (sizeof output < length) {
        send(bytes, length);
    } else {
        memmove(output + output_end, bytes, length);
        output_end += length;
    }
}

/* The next bytes of the input, or null where it ends before. What waits is written before more is read. */
static uint8_t *take(size_t length)
{
    if (length > ROOM)
        exit(2);
    if (input_end - input_start < length) {
        flush();
        memmove(input, input + input_start, input_end - input_start);
        input_end -= input_start;
        input_start = 0;
    }
    while (input_end < input_start + length) {
        long more = read(0, input + input_end, ROOM - input_end);
        if (more <= 0)
            return 0;
        input_end += (size_t)more;
    }
    input_start += length;
    return input + input_start - length;
}

#define LENT(at) lent[at].bytes, lent[at].length

#ifdef HAS_cell
static uint64_t call_cell(uint8_t code, const struct slice lent[4], uint64_t words[5])
{
    words[0] = tanvelis_cell(code, LENT(0));
    words[1] = tanvelis_cell_first(code, LENT(0));
    words[2] = tanvelis_cell_second(code, LENT(0));
    return 3;
}
#endif

#ifdef HAS_box
static uint64_t call_box(const struct slice lent[4], uint64_t words[5])
{
    words[0] = tanvelis_box(LENT(0), LENT(1));
    words[1] = tanvelis_box_east(LENT(0), LENT(1));
    words[2] = tanvelis_box_north(LENT(0), LENT(1));
    words[3] = tanvelis_box_south(LENT(0), LENT(1));
    words[4] = tanvelis_box_west(LENT(0), LENT(1));
    return 5;
}
#endif

/* Calls the operation; how many numbers it gives, 0 if the library has no such operation. */
static uint64_t call(uint32_t operation, uint8_t code, const struct slice lent[4], uint64_t words[5])
{
    switch (operation) {
#ifdef HAS_check
    case CHECK:
        words[0] = tanvelis_check(LENT(0), LENT(1));
        return 1;
#endif
#ifdef HAS_find
    case FIND:
        words[0] = tanvelis_find(LENT(0), LENT(1), LENT(2));
        return 1;
#endif
#ifdef HAS_normalise
    case NORMALISE:
        words[0] = tanvelis_normalise(LENT(0), LENT(1), LENT(2), LENT(3));
        return 1;
#endif
#ifdef HAS_shred
    case SHRED:
        words[0] = tanvelis_shred(LENT(0), LENT(1), LENT(2), LENT(3));
        return 1;
#endif
#ifdef HAS_rebuild
    case REBUILD:
        words[0] = tanvelis_rebuild(LENT(0), LENT(1), LENT(2), LENT(3));
        return 1;
#endif
#ifdef HAS_cell
    case CELL: return call_cell(code, lent, words);
#endif
#ifdef HAS_box
    case BOX: return call_box(lent, words);
#endif
#ifdef HAS_judge
    case JUDGE:
        words[0] = tanvelis_judge(LENT(0), LENT(1));
        return 1;
#endif
    default: return 0;
    }
}

/* How long a slice of a request is with the bytes around it. */
static size_t whole(const struct request *request, uint32_t at)
{
    return request->lengths[at] + 2 * (size_t)request->around;
}

/* The bytes of all slices of a request. */
static size_t all(const struct request *request)
{
    size_t length = 0;
    for (uint32_t at = 0; at < request->slices; at++)
        length += whole(request, at);
    return length;
}

/* Takes the slices of a request, calls the operation on them, and answers. */
static void serve(const struct request *request)
{
    struct slice lent[4] = {0};
    struct answer answer = {0};
    if (request->slices > 4)
        exit(2);
    uint8_t *bytes = take(all(request));
    if (!bytes)
        exit(2);
    uint8_t *next = bytes + request->around;
    for (uint32_t at = 0; at < request->slices; at++) {
        lent[at] = (struct slice){next, request->lengths[at]};
        next += whole(request, at);
    }
    answer.count = call(request->operation, (uint8_t)request->code, lent, answer.words);
    if (!answer.count)
        exit(2);
    put(&answer, sizeof answer);
    put(bytes, all(request));
}

int main(void)
{
    struct request request;
    for (;;) {
        const uint8_t *head = take(sizeof request);
        if (!head)
            return input_end == input_start ? 0 : 2;
        memmove(&request, head, sizeof request);
        serve(&request);
    }
}
