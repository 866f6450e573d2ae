/* The kernel's side of the bridge (README.md here): an x86-64 program over the proved archive, run by the kit's emulator. It takes calls
 * from standard input and answers on standard output until the input ends.
 *
 * A call: the function (1 byte), a power byte, then the lengths of three slices that are read and of one that is written (8 bytes each),
 * then their bytes. The answer: the number that the function returned, four numbers of 8 bytes, then the written slice, all of it.
 *
 * No header is included: the kit has a compiler for x86-64 and a C library to link, and no headers for them. */
typedef unsigned char byte;
typedef __SIZE_TYPE__ size;

extern byte keyline_delegation_decode(const byte *, size, size *, byte *, byte *, size *);
extern byte keyline_delegation_encode(const byte *, size, const byte *, size, byte, const byte *, size, byte *, size, size *, size *);
extern byte keyline_run(const byte *, size, byte *, size, size *, size *);
extern long read(int, void *, size), write(int, const void *, size);
extern void *malloc(size), *memset(void *, int, size);
extern void free(void *);
extern void _exit(int) __attribute__((noreturn));

enum { DECODE = 1, ENCODE = 2, RUN = 3, HEAD = 34, ANSWER = 33, SLICES = 4, GUARD = 64, FILL = 0xb5 };

/* A pipe gives and takes what it likes at a time. Without the other side there is nothing left to do. */
static void take(byte *to, size count) {
    while (count > 0) {
        long n = read(0, to, count);
        if (n <= 0) _exit(n == 0 ? 0 : 3);
        to += n, count -= (size)n;
    }
}

static void give(const byte *from, size count) {
    while (count > 0) {
        long n = write(1, from, count);
        if (n <= 0) _exit(3);
        from += n, count -= (size)n;
    }
}

/* Room for a slice with bytes around it that no call may touch: the caller's own guards are in another process. */
static byte *guarded(size count) {
    byte *room = malloc(count + 2 * GUARD);
    if (!room) _exit(4);
    memset(room, FILL, GUARD);
    memset(room + GUARD + count, FILL, GUARD);
    return room + GUARD;
}

static void release(byte *slice, size count) {
    for (size i = 0; i < GUARD; i++)
        if (slice[-1 - (long)i] != FILL || slice[count + i] != FILL) _exit(5);
    free(slice - GUARD);
}

int main(void) {
    for (;;) {
        byte head[HEAD], *slice[SLICES], number = 255;
        size length[SLICES];
        take(head, HEAD);
        for (int i = 0; i < SLICES; i++) length[i] = *(size *)__builtin_memcpy(&length[i], head + 2 + 8 * i, 8);
        for (int i = 0; i < SLICES; i++) take(slice[i] = guarded(length[i]), length[i]);
        size values[4] = {(size)-1, (size)-1, (size)-1, (size)-1};
        byte power = 255, rank = 255;
        switch (head[0]) {
        case DECODE:
            number = keyline_delegation_decode(slice[0], length[0], &values[0], &power, &rank, &values[3]);
            values[1] = power, values[2] = rank;
            break;
        case ENCODE:
            number = keyline_delegation_encode(slice[0], length[0], slice[1], length[1], head[1], slice[2], length[2],
                                               slice[3], length[3], &values[0], &values[1]);
            break;
        case RUN:
            number = keyline_run(slice[0], length[0], slice[3], length[3], &values[0], &values[1]);
            break;
        default:
            _exit(6);
        }
        byte answer[ANSWER] = {number};
        __builtin_memcpy(answer + 1, values, sizeof values);
        give(answer, ANSWER);
        give(slice[3], length[3]);
        for (int i = 0; i < SLICES; i++) release(slice[i], length[i]);
    }
}
