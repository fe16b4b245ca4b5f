/* A modem in small: one link over a pipe. Its bytes come from standard input and reach the server in pieces of five, as a radio link might
 * chop them; each packet of the server is printed as a line of hex. The end of the input is the loss of the link.
 *
 *     modem CLOCK < BYTES          CLOCK: seconds, as the server puts it into LOGIN_RESP and into upload times
 *
 * Exit status: 0 the link was played to its end; 1 the input can't be read or the output can't be written; 2 wrong use.
 * scripts/build-embed builds it.
 */
#include <stdio.h>

#include "figmorella.h"

enum { BLOCKS = 8, FILES = 4, SESSIONS = 1, MOST = 5, SESSION = 1, PIECE = 5 };

/* all memory of the server; its contents do not matter before the server is made */
static uint64_t memory[FIGMORELLA_BYTES(BLOCKS, FILES, SESSIONS, MOST) / 8];

/* Does what an answer asks of a modem. 1 while the link is there. */
static int obey(const struct figmorella *f, uint8_t answer)
{
    size_t i;

    switch (answer) {
    case FIGMORELLA_QUIET:
        return 1;
    case FIGMORELLA_SENT: /* send the packet: here it is printed */
        printf("send ");
        for (i = 0; i < f->counts[1]; i++)
            printf("%02x", f->out[i]);
        printf("\n");
        return 1;
    case FIGMORELLA_CLOSED: /* disconnect; the session is closed already, so it is not reported as lost */
        printf("disconnect\n");
        return 0;
    default: /* refused: the caller asked for something that it may not; nothing has changed */
        printf("refused %u\n", (unsigned)answer);
        return 0;
    }
}

/* Sends all that is due on the downlink. A real modem asks for the next packet when the link has room for it. */
static void pump(struct figmorella *f)
{
    while (figmorella_server_request(f, SESSION) == FIGMORELLA_SENT)
        obey(f, FIGMORELLA_SENT);
}

/* Hands a piece to the server. A call takes bytes up to the end of one packet, so the rest is handed in again. 1 while the link is there. */
static int hear(struct figmorella *f, uint32_t clock, const uint8_t *piece, size_t n)
{
    while (n > 0) {
        if (!obey(f, figmorella_server_receive(f, SESSION, clock, piece, n)))
            return 0;
        piece += f->counts[0];
        n -= f->counts[0];
        pump(f);
    }
    return 1;
}

/* The link from its connection to its end. */
static void pass(struct figmorella *f, uint32_t clock)
{
    uint8_t piece[PIECE];
    size_t n;

    if (!obey(f, figmorella_server_open(f, SESSION, clock)))
        return;
    while ((n = fread(piece, 1, sizeof piece, stdin)) > 0)
        if (!hear(f, clock, piece, n))
            return;
    printf("lost\n");
    obey(f, figmorella_server_lose(f, SESSION));
}

/* A clock has 32 bits and is written in digits alone. 1 where the word is one. */
static int read_clock(const char *word, uint32_t *clock)
{
    uint64_t seconds = 0;

    if (*word == '\0')
        return 0;
    for (; *word != '\0'; word++) {
        if (*word < '0' || *word > '9')
            return 0;
        seconds = 10 * seconds + (uint64_t)(*word - '0');
        if (seconds > UINT32_MAX)
            return 0;
    }
    *clock = (uint32_t)seconds;
    return 1;
}

int main(int argc, char **argv)
{
    static struct figmorella f;
    uint32_t clock;

    if (argc != 2) {
        fprintf(stderr, "use: modem CLOCK < BYTES\n");
        return 2;
    }
    if (!read_clock(argv[1], &clock)) {
        fprintf(stderr, "modem: CLOCK is a number of seconds, 0 to 4294967295, and not '%s'\n", argv[1]);
        return 2;
    }
    if (figmorella_server_place(&f, memory, sizeof memory, BLOCKS, FILES, SESSIONS, MOST) != 0
        || figmorella_server_make(&f, BLOCKS, FILES, SESSIONS, MOST) != 0) {
        fprintf(stderr, "modem: the sizes are outside the table\n");
        return 1;
    }
    pass(&f, clock);
    if (figmorella_server_free(&f) == 0)
        printf("blocks %zu free of %zu\n", f.counts[0], f.counts[1]);
    if (ferror(stdin)) {
        fprintf(stderr, "modem: standard input can't be read\n");
        return 1;
    }
    if (fflush(stdout) != 0 || ferror(stdout)) {
        fprintf(stderr, "modem: standard output can't be written\n");
        return 1;
    }
    return 0;
}
