/* Tests the inline functions of include/figmorella.h over the proved library, and what docs/EMBEDDING.md says of restarts, half-written copies and
 * two servers. C99 and C++. The last line is 'N passed; M failed'. scripts/test-embed builds and runs it. */
#include <stdio.h>
#include <string.h>

#include "figmorella.h"

enum { BLOCKS = 128, FILES = 32, SESSIONS = 4, MOST = 50, BYTES = FIGMORELLA_BYTES(BLOCKS, FILES, SESSIONS, MOST), GUARD = 16 };

#ifdef __cplusplus
#define LANGUAGE "C++"
#else
#define LANGUAGE "C"
#endif

static int passed, failed;

static void expect(const char *what, int good)
{
    if (good)
        passed++;
    else
        failed++;
    printf("header in " LANGUAGE ": %s: %s\n", what, good ? "ok" : "FAILED");
    fflush(stdout); /* a later crash hides nothing */
}

/* ---- sizes */

static int same_bytes(size_t blocks, size_t files, size_t sessions, size_t most)
{
    size_t bytes = figmorella_bytes(blocks, files, sessions, most);

    return bytes != 0 && bytes % 8 == 0 && bytes == FIGMORELLA_BYTES(blocks, files, sessions, most);
}

static void test_bytes(void)
{
    size_t b, f, s, m;
    int good = 1;

    for (b = 1; b <= 4096; b++)
        good &= same_bytes(b, 1, 1, 1) && same_bytes(b, 256, 4, 50);
    for (b = 1; b <= 4096; b += 63)
        for (f = 1; f <= 256; f += 17)
            for (s = 1; s <= 4; s++)
                for (m = 1; m <= 50; m += 7)
                    good &= same_bytes(b, f, s, m);
    expect("the bytes of every number of blocks, and of many other sizes, are those of the constant", good);
    expect("sizes outside the table need 0 bytes",
           figmorella_bytes(0, 1, 1, 1) == 0 && figmorella_bytes(4097, 1, 1, 1) == 0 && figmorella_bytes(1, 0, 1, 1) == 0
               && figmorella_bytes(1, 257, 1, 1) == 0 && figmorella_bytes(1, 1, 0, 1) == 0 && figmorella_bytes(1, 1, 5, 1) == 0
               && figmorella_bytes(1, 1, 1, 0) == 0 && figmorella_bytes(1, 1, 1, 51) == 0 && figmorella_bytes(SIZE_MAX, 1, 1, 1) == 0);
}

static void test_version(void)
{
    char text[32];

    snprintf(text, sizeof text, "%d.%d", FIGMORELLA_VERSION_MAJOR, FIGMORELLA_VERSION_MINOR);
    expect("the version's text has its numbers", strcmp(text, FIGMORELLA_VERSION) == 0);
    expect("the words of a state", figmorella_state_words() == FIGMORELLA_STATE_WORDS);
}

/* ---- memory */

static uint64_t lent[BYTES / 8 + 2 * GUARD];
static uint64_t *const memory = lent + GUARD;

/* the parts of a server, in the order of need */
struct part {
    const void *at;
    size_t size;
};

static void parts_of(const struct figmorella *f, struct part *parts)
{
    static const size_t size[FIGMORELLA_NEEDS] = { 8, 1, 8, 2, 4, 4, 1 };
    const void *at[FIGMORELLA_NEEDS];
    size_t i;

    at[0] = f->state;
    at[1] = f->disk;
    at[2] = f->map;
    at[3] = f->owner;
    at[4] = f->table;
    at[5] = f->selected;
    at[6] = f->held;
    for (i = 0; i < FIGMORELLA_NEEDS; i++) {
        parts[i].at = at[i];
        parts[i].size = size[i] * f->need[i];
    }
}

/* each part is aligned, lies in the memory, and overlaps with no other */
static int laid_out(const struct figmorella *f, const void *block, size_t bytes)
{
    static const size_t size[FIGMORELLA_NEEDS] = { 8, 1, 8, 2, 4, 4, 1 };
    struct part part[FIGMORELLA_NEEDS];
    uintptr_t begin = (uintptr_t)block, at, other;
    size_t i, j;

    parts_of(f, part);
    for (i = 0; i < FIGMORELLA_NEEDS; i++) {
        at = (uintptr_t)part[i].at;
        if (at % size[i] != 0 || at < begin || at + part[i].size > begin + bytes)
            return 0;
        for (j = 0; j < i; j++) {
            other = (uintptr_t)part[j].at;
            if (at < other + part[j].size && other < at + part[i].size)
                return 0;
        }
    }
    return 1;
}

static int placed(size_t blocks, size_t files, size_t sessions, size_t most)
{
    static uint64_t block[FIGMORELLA_BYTES(4096, 256, 4, 50) / 8];
    struct figmorella f;
    size_t need[FIGMORELLA_NEEDS], bytes = figmorella_bytes(blocks, files, sessions, most);

    return figmorella_memory(blocks, files, sessions, most, need, FIGMORELLA_NEEDS) == 0
        && figmorella_server_place(&f, block, bytes, blocks, files, sessions, most) == 0 && memcmp(need, f.need, sizeof need) == 0
        && laid_out(&f, block, bytes) && figmorella_server_make(&f, blocks, files, sessions, most) == 0;
}

static void test_place(void)
{
    struct figmorella f;
    size_t blocks, files, i;
    int good = 1;

    for (blocks = 1; blocks <= 4096; blocks += 65)
        for (files = 1; files <= 256; files += 51)
            good &= placed(blocks, files, 1 + blocks % 4, 1 + blocks % 50);
    expect("at many sizes each part is aligned, in the memory and apart from the others, and a server can be made", good && placed(4096, 256, 4, 50));

    memset(lent, 0x5a, sizeof lent);
    good = figmorella_server_place(&f, memory, BYTES, BLOCKS, FILES, SESSIONS, MOST) == 0;
    for (i = 0; i < sizeof lent / sizeof *lent; i++)
        good &= lent[i] == 0x5a5a5a5a5a5a5a5aU;
    expect("placing writes nothing into the memory", good && f.counts[0] == 0 && f.counts[1] == 0);
}

/* 33, and the struct is as it was */
static int refused(void *block, size_t bytes, size_t blocks, size_t files, size_t sessions, size_t most)
{
    struct figmorella f, before;

    memset(&f, 0x77, sizeof f);
    memset(&before, 0x77, sizeof before);
    return figmorella_server_place(&f, block, bytes, blocks, files, sessions, most) == FIGMORELLA_NO_ROOM
        && memcmp(&f, &before, sizeof f) == 0;
}

static void test_refused(void)
{
    size_t shift;
    int good = 1;

    expect("too few bytes are refused",
           refused(memory, BYTES - 1, BLOCKS, FILES, SESSIONS, MOST) && refused(memory, BYTES - 8, BLOCKS, FILES, SESSIONS, MOST)
               && refused(memory, 0, BLOCKS, FILES, SESSIONS, MOST) && refused(memory, 0, 1, 1, 1, 1));
    for (shift = 1; shift < 8; shift++)
        good &= refused((uint8_t *)memory + shift, BYTES, BLOCKS, FILES, SESSIONS, MOST);
    expect("memory that is not aligned is refused", good);
    expect("no memory is refused", refused(NULL, BYTES, BLOCKS, FILES, SESSIONS, MOST));
    expect("sizes outside the table are refused",
           refused(memory, BYTES, 0, FILES, SESSIONS, MOST) && refused(memory, BYTES, 4097, FILES, SESSIONS, MOST)
               && refused(memory, BYTES, BLOCKS, 0, SESSIONS, MOST) && refused(memory, BYTES, BLOCKS, 257, SESSIONS, MOST)
               && refused(memory, BYTES, BLOCKS, FILES, 0, MOST) && refused(memory, BYTES, BLOCKS, FILES, 5, MOST)
               && refused(memory, BYTES, BLOCKS, FILES, SESSIONS, 0) && refused(memory, BYTES, BLOCKS, FILES, SESSIONS, 51));
}

/* ---- calls */

static const uint8_t BEGIN[] = { 8, 3, 0, 0, 0, 0, 80, 0, 0, 0 };    /* UPLOAD_CMD, a new file of 80 bytes */
static const uint8_t GO_ON[] = { 8, 3, 1, 0, 0, 0, 80, 0, 0, 0 };    /* UPLOAD_CMD, file 1 is continued */
static const uint8_t DATA[] = { 2, 0, 0x55, 0x66 };                  /* DATA, two bytes */
static const uint8_t GO[] = { 8, 4, 1, 0, 0, 0, 0, 0, 0, 0 };        /* UL_GO_RESP, file 1 from its first byte */
static const uint8_t GO_2[] = { 8, 4, 1, 0, 0, 0, 2, 0, 0, 0 };      /* UL_GO_RESP, file 1 from its third byte */
static const uint8_t LOGIN[] = { 5, 2, 7, 0, 0, 0, 4 };              /* LOGIN_RESP at clock 7 */

static int is_sent(const struct figmorella *f, uint8_t answer, const uint8_t *packet, size_t n)
{
    return answer == FIGMORELLA_SENT && f->counts[1] == n && memcmp(f->out, packet, n) == 0;
}

static int opened(struct figmorella *f, size_t session)
{
    return is_sent(f, figmorella_server_open(f, session, 7), LOGIN, sizeof LOGIN);
}

static int begun(struct figmorella *f, size_t session)
{
    return is_sent(f, figmorella_server_receive(f, session, 7, BEGIN, sizeof BEGIN), GO, sizeof GO);
}

static int stored(struct figmorella *f, size_t session)
{
    return figmorella_server_receive(f, session, 7, DATA, sizeof DATA) == FIGMORELLA_QUIET && f->counts[0] == sizeof DATA;
}

/* a server with a link on session 2 that has uploaded two bytes of a file */
static int uploading(struct figmorella *f, uint64_t *block)
{
    memset(block, 0, BYTES);
    return figmorella_server_place(f, block, BYTES, BLOCKS, FILES, SESSIONS, MOST) == 0
        && figmorella_server_make(f, BLOCKS, FILES, SESSIONS, MOST) == 0 && opened(f, 2) && begun(f, 2) && stored(f, 2);
}

static void test_calls(void)
{
    struct figmorella f;
    size_t i;
    int good = 1;

    memset(lent, 0x5a, sizeof lent);
    expect("a link uploads", uploading(&f, memory));
    expect("nothing more is due", figmorella_server_request(&f, 2) == FIGMORELLA_QUIET);
    expect("blocks are counted", figmorella_server_free(&f) == 0 && f.counts[0] == BLOCKS - 1 && f.counts[1] == BLOCKS);
    expect("a link is lost", figmorella_server_lose(&f, 2) == FIGMORELLA_QUIET);
    expect("a session that is not open is refused", figmorella_server_lose(&f, 2) == FIGMORELLA_NO_SESSION);
    for (i = 0; i < GUARD; i++)
        good &= lent[i] == 0x5a5a5a5a5a5a5a5aU && memory[BYTES / 8 + i] == 0x5a5a5a5a5a5a5a5aU;
    expect("nothing outside the memory is written", good);
}

/* ---- restart: as in docs/EMBEDDING.md */

static int resume(struct figmorella *f)
{
    size_t session;
    uint8_t answer;

    if (f->state[0] != BLOCKS || f->state[1] != FILES || f->state[2] != SESSIONS || f->state[3] != MOST)
        return 0;
    for (session = 1; session <= SESSIONS; session++) {
        answer = figmorella_server_lose(f, session);
        if (answer != FIGMORELLA_QUIET && answer != FIGMORELLA_NO_SESSION)
            return 0;
    }
    return 1;
}

static uint64_t copy[BYTES / 8 + 1];

/* another program reads the memory back, at another address */
static int read_back(struct figmorella *f)
{
    memcpy(copy + 1, memory, BYTES);
    return figmorella_server_place(f, copy + 1, BYTES, BLOCKS, FILES, SESSIONS, MOST) == 0;
}

static void test_restart(void)
{
    struct figmorella f, g;

    expect("the memory is read back", uploading(&f, memory) && read_back(&g));
    expect("a session that was saved as open can't be opened", figmorella_server_open(&g, 2, 7) == FIGMORELLA_NO_SESSION);
    expect("after a restart each session is lost", resume(&g) && resume(&g) && opened(&g, 2));
    expect("an upload goes on after a restart",
           is_sent(&g, figmorella_server_receive(&g, 2, 7, GO_ON, sizeof GO_ON), GO_2, sizeof GO_2) && stored(&g, 2));
    expect("the server before the restart is as it was", stored(&f, 2));
}

/* words and slices that are not what was saved */
static void test_damaged(void)
{
    struct figmorella f, g, small;
    struct part from[FIGMORELLA_NEEDS], to[FIGMORELLA_NEEDS];
    size_t i;
    int good;

    good = uploading(&f, memory) && read_back(&g);
    g.state[6] = 2;
    expect("a flag that is none is 35", good && figmorella_server_lose(&g, 1) == FIGMORELLA_DAMAGED && !resume(&g));
    good = read_back(&g);
    memset(g.owner, 0, 2 * g.need[3]);
    expect("a part that is older than the others is 35", good && figmorella_server_lose(&g, 2) == FIGMORELLA_DAMAGED && !resume(&g));
    good = read_back(&g);
    memset(g.disk, 0, g.need[1]);
    expect("lost bytes of files are not noticed", good && resume(&g));
    good = read_back(&g);
    memset(copy + 1, 0, BYTES);
    expect("memory of zeros is 33", good && figmorella_server_lose(&g, 1) == FIGMORELLA_NO_ROOM && !resume(&g));

    good = read_back(&g);
    g.state[0] = BLOCKS + 1;
    expect("a state of more blocks than the memory has is 33", good && figmorella_server_lose(&g, 2) == FIGMORELLA_NO_ROOM && !resume(&g));
    /* the seven parts of a smaller server, each at the beginning of a longer one */
    good = figmorella_server_place(&small, memory, BYTES, 64, 16, 2, 20) == 0 && figmorella_server_make(&small, 64, 16, 2, 20) == 0;
    parts_of(&small, from);
    parts_of(&g, to);
    for (i = 0; i < FIGMORELLA_NEEDS; i++)
        memcpy((uint8_t *)copy + ((uintptr_t)to[i].at - (uintptr_t)copy), from[i].at, from[i].size);
    expect("a state of smaller sizes is taken with its own sizes",
           good && figmorella_server_free(&g) == 0 && g.counts[0] == 64 && g.counts[1] == 64 && opened(&g, 2)
               && figmorella_server_open(&g, 3, 7) == FIGMORELLA_NO_SESSION && !resume(&g));
}

static void test_two(void)
{
    static uint64_t other[BYTES / 8];
    struct figmorella f, g;
    int good;

    memset(memory, 0, BYTES);
    memset(other, 0, BYTES);
    good = figmorella_server_place(&f, memory, BYTES, BLOCKS, FILES, SESSIONS, MOST) == 0
        && figmorella_server_place(&g, other, BYTES, BLOCKS, FILES, SESSIONS, MOST) == 0
        && figmorella_server_make(&f, BLOCKS, FILES, SESSIONS, MOST) == 0 && figmorella_server_make(&g, BLOCKS, FILES, SESSIONS, MOST) == 0;
    good = good && opened(&f, 2) && opened(&g, 2) && begun(&f, 2) && begun(&g, 2) && stored(&g, 2) && stored(&f, 2);
    expect("two servers in turn are as one alone", good && memcmp(memory, other, BYTES) == 0 && uploading(&g, other)
               && memcmp(memory, other, BYTES) == 0);
}

int main(void)
{
    test_version();
    test_bytes();
    test_place();
    test_refused();
    test_calls();
    test_restart();
    test_damaged();
    test_two();
    printf("%d passed; %d failed\n", passed, failed);
    return failed != 0;
}
