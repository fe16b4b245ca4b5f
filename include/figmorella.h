/* The proved PACSAT file server (FTL0 version 0) for modem software in C and C++: link with libfigmorella.a.
 *
 * The caller keeps all memory: nothing is allocated, nothing is kept between calls, and every call returns. Memory for a server, and a link:
 *
 *     static struct figmorella f;
 *     static uint64_t memory[FIGMORELLA_BYTES(128, 32, 4, 50) / 8]; // 128 blocks, 32 files, 4 sessions, MAXSEL 50
 *
 *     int begin(void) // once: an empty store
 *     {
 *         return figmorella_server_place(&f, memory, sizeof memory, 128, 32, 4, 50) == 0
 *             && figmorella_server_make(&f, 128, 32, 4, 50) == 0;
 *     }
 *
 *     int obey(size_t session, uint8_t answer) // 1 while the link is there
 *     {
 *         if (answer == FIGMORELLA_SENT)
 *             send_packet(session, f.out, f.counts[1]);
 *         if (answer == FIGMORELLA_CLOSED)
 *             disconnect(session);
 *         return answer == FIGMORELLA_QUIET || answer == FIGMORELLA_SENT;
 *     }
 *
 *     int link_is_up(size_t session, uint32_t clock)
 *     {
 *         return obey(session, figmorella_server_open(&f, session, clock));
 *     }
 *
 *     int link_brings(size_t session, uint32_t clock, const uint8_t *bytes, size_t n) // pieces of any size
 *     {
 *         while (n > 0) {
 *             if (!obey(session, figmorella_server_receive(&f, session, clock, bytes, n)))
 *                 return 0;
 *             bytes += f.counts[0];
 *             n -= f.counts[0];
 *             while (figmorella_server_request(&f, session) == FIGMORELLA_SENT) // as long as the link has room
 *                 obey(session, FIGMORELLA_SENT);
 *         }
 *         return 1;
 *     }
 *
 *     void link_is_lost(size_t session)
 *     {
 *         figmorella_server_lose(&f, session);
 *     }
 *
 * Proved are the eight functions of the library, which are declared below as the proved functions: what each promises stands in
 * crates/embed/specs/Calls.antt. Not proved, but tested, are the inline functions of this header. Those of a call only hand on what the struct
 * holds; figmorella_bytes and figmorella_server_place only lay out memory, as long as the proved figmorella_memory says.
 *
 * One call at a time for one server; two servers have nothing in common. docs/EMBEDDING.md says how a modem uses the calls, and more on restarts,
 * threads, the loss of power and the stack.
 */
#ifndef FIGMORELLA_H
#define FIGMORELLA_H

#include <stddef.h>
#include <stdint.h>

#ifdef __cplusplus
extern "C" {
#endif

/* ---- the version of this header and of the library that is installed with it
 *
 * MAJOR changes where a program must be looked at: a call, an answer or a struct is another, or a state that an older version saved is not read.
 * MINOR changes where something is added or mended, and programs and saved states stay as they are. */

#define FIGMORELLA_VERSION_MAJOR 1
#define FIGMORELLA_VERSION_MINOR 0
#define FIGMORELLA_VERSION "1.0"

/* ---- answers of the calls */

#define FIGMORELLA_QUIET 0      /* nothing is to be sent */
#define FIGMORELLA_SENT 1       /* a packet is in out: send its counts[1] bytes */
#define FIGMORELLA_CLOSED 2     /* the server closed the link: disconnect it */
#define FIGMORELLA_NO_OUTPUT 32 /* out is shorter than FIGMORELLA_PACKET */
#define FIGMORELLA_NO_ROOM 33   /* a size or length outside the table, or a buffer too short */
#define FIGMORELLA_NO_SESSION 34 /* session number out of range, not open, or already open */
#define FIGMORELLA_DAMAGED 35   /* the state or the store is damaged: a fact of the table is broken */

#define FIGMORELLA_STATE_WORDS 54 /* as figmorella_state_words() */
#define FIGMORELLA_PACKET 258     /* bytes of the longest packet: the least length of out */
#define FIGMORELLA_COUNTS 2       /* the least length of counts */
#define FIGMORELLA_NEEDS 7        /* the least length of need */

/* ---- a server: its memory in one struct, so that no pointer is given with another's length
 *
 * Sizes: 1 to 4096 blocks of 256 bytes, 1 to 256 files, 1 to 4 sessions, most (MAXSEL) 1 to 50. Sessions are numbered from 1.
 * 32 to 35 change nothing at all; they are tested in the order 33, 35, 34, 32. */

struct figmorella {
    uint64_t *state;
    uint8_t *disk;
    uint64_t *map;
    uint16_t *owner;
    uint32_t *table;
    uint32_t *selected;
    uint8_t *held;
    size_t need[FIGMORELLA_NEEDS];     /* the elements of each, in this order */
    uint8_t out[FIGMORELLA_PACKET];    /* the packet of an answer 1 */
    size_t counts[FIGMORELLA_COUNTS];  /* bytes taken, bytes of the packet */
};

/* The bytes of memory that a server of these sizes needs, a multiple of 8; 0 for sizes outside the table. */
static inline size_t figmorella_bytes(size_t blocks, size_t files, size_t sessions, size_t most);

/* The same as a constant, for memory that stands in the program. It does not notice sizes outside the table: figmorella_server_place refuses them. */
#define FIGMORELLA_BYTES(blocks, files, sessions, most)                                                                                  \
    ((8 * (size_t)FIGMORELLA_STATE_WORDS + 8 * (((size_t)(blocks) + 63) / 64) + 258 * (size_t)(blocks) + 16 * (size_t)(files)             \
      + (4 * (size_t)(most) + 258) * (size_t)(sessions) + 7) / 8 * 8)

/* Lays a server of these sizes into one block of memory that the caller lends, and fills in f. The memory itself is neither read nor written: next
 * comes figmorella_server_make, or what was saved is read back into it. It is the server's as long as calls are made, and nobody else writes it.
 * Where the parts lie in it depends on the sizes alone, so that the block can be saved as one. Answers 0; or 33, with f as it was, for sizes outside
 * the table, fewer than figmorella_bytes bytes, NULL, and memory that is not aligned for uint64_t (that of malloc is). */
static inline uint8_t figmorella_server_place(struct figmorella *f, void *memory, size_t bytes,
                                              size_t blocks, size_t files, size_t sessions, size_t most);

/* A server over an empty store. What the memory held before does not matter. Answers 0 or 33. */
static inline uint8_t figmorella_server_make(struct figmorella *f, size_t blocks, size_t files, size_t sessions, size_t most);

/* A link is there: the session begins, and LOGIN_RESP is in out. */
static inline uint8_t figmorella_server_open(struct figmorella *f, size_t session, uint32_t clock);

/* Bytes from the link; input is not NULL, also where n is 0. The call takes bytes up to the end of one packet, or all: counts[0] says how many.
 * Hand in the others again. */
static inline uint8_t figmorella_server_receive(struct figmorella *f, size_t session, uint32_t clock, const uint8_t *input, size_t n);

/* What is due on the downlink: the next packet of a download or of a directory, or nothing. Call it whenever the link can send more, until it
 * answers 0. */
static inline uint8_t figmorella_server_request(struct figmorella *f, size_t session);

/* The link is lost or was disconnected by the other side: the session is closed. A partial file stays, to be continued. */
static inline uint8_t figmorella_server_lose(struct figmorella *f, size_t session);

/* Counts the free blocks in counts[0] and all blocks in counts[1]. */
static inline uint8_t figmorella_server_free(struct figmorella *f);

/* ---- the proved functions, for who keeps the seven parts of the memory elsewhere
 *
 * A slice passes as a pointer and the number of its elements. Any numbers and any contents are taken. Of the pointers each call asks what C asks of
 * every array: not NULL, also where the length is 0; aligned for its type; as many elements as the length says; and memory that is written
 * overlaps with no other memory of the same call. */

/* The number of 64-bit words of the server's state: 54. */
size_t figmorella_state_words(void);

/* How many elements each slice needs: need[0] state, [1] disk, [2] map, [3] owner, [4] table, [5] selected, [6] held. Answers 0 or 33. */
uint8_t figmorella_memory(size_t blocks, size_t files, size_t sessions, size_t most, size_t *need, size_t need_len);

/* A server over an empty store. The disk is only asked for its length. Answers 0 or 33. */
uint8_t figmorella_make(size_t blocks, size_t files, size_t sessions, size_t most,
                        uint64_t *state, size_t state_len, const uint8_t *disk, size_t disk_len,
                        uint64_t *map, size_t map_len, uint16_t *owner, size_t owner_len,
                        uint32_t *table, size_t table_len, uint32_t *selected, size_t selected_len,
                        uint8_t *held, size_t held_len);

/* A link is there: the session, numbered from 1, begins, and LOGIN_RESP is in out. */
uint8_t figmorella_open(uint64_t *state, size_t state_len, const uint8_t *disk, size_t disk_len,
                        const uint64_t *map, size_t map_len, const uint16_t *owner, size_t owner_len,
                        const uint32_t *table, size_t table_len, const uint32_t *selected, size_t selected_len,
                        const uint8_t *held, size_t held_len, uint8_t *out, size_t out_len,
                        size_t *counts, size_t counts_len, size_t session, uint32_t clock);

/* Bytes from the link. The call takes bytes up to the end of one packet, or all: counts[0] says how many. Hand in the others again. */
uint8_t figmorella_receive(uint64_t *state, size_t state_len, uint8_t *disk, size_t disk_len,
                           uint64_t *map, size_t map_len, uint16_t *owner, size_t owner_len,
                           uint32_t *table, size_t table_len, uint32_t *selected, size_t selected_len,
                           uint8_t *held, size_t held_len, uint8_t *out, size_t out_len,
                           size_t *counts, size_t counts_len, size_t session, uint32_t clock,
                           const uint8_t *input, size_t input_len);

/* What is due on the downlink: the next packet of a download or of a directory, or nothing. Call it whenever the link can send more, until it
 * answers 0. */
uint8_t figmorella_request(uint64_t *state, size_t state_len, const uint8_t *disk, size_t disk_len,
                           const uint64_t *map, size_t map_len, const uint16_t *owner, size_t owner_len,
                           const uint32_t *table, size_t table_len, const uint32_t *selected, size_t selected_len,
                           const uint8_t *held, size_t held_len, uint8_t *out, size_t out_len,
                           size_t *counts, size_t counts_len, size_t session);

/* The link is lost or was disconnected by the other side: the session is closed. A partial file stays, to be continued. */
uint8_t figmorella_lose(uint64_t *state, size_t state_len, const uint8_t *disk, size_t disk_len,
                        const uint64_t *map, size_t map_len, const uint16_t *owner, size_t owner_len,
                        const uint32_t *table, size_t table_len, uint32_t *selected, size_t selected_len,
                        uint8_t *held, size_t held_len, size_t *counts, size_t counts_len, size_t session);

/* The free blocks in counts[0] and all blocks in counts[1]. */
uint8_t figmorella_free(const uint64_t *state, size_t state_len, const uint64_t *map, size_t map_len,
                        size_t *counts, size_t counts_len);

/* ---- the inline functions */

static inline size_t figmorella_bytes(size_t blocks, size_t files, size_t sessions, size_t most)
{
    size_t need[FIGMORELLA_NEEDS];

    if (figmorella_memory(blocks, files, sessions, most, need, FIGMORELLA_NEEDS) != 0)
        return 0;
    return (8 * need[0] + need[1] + 8 * need[2] + 2 * need[3] + 4 * need[4] + 4 * need[5] + need[6] + 7) / 8 * 8;
}

/* the longest elements first, so that each part is aligned where the one before it ends */
static inline uint8_t figmorella_server_place(struct figmorella *f, void *memory, size_t bytes,
                                              size_t blocks, size_t files, size_t sessions, size_t most)
{
    size_t needed = figmorella_bytes(blocks, files, sessions, most);

    if (needed == 0 || bytes < needed || memory == NULL || (uintptr_t)memory % 8 != 0)
        return FIGMORELLA_NO_ROOM;
    figmorella_memory(blocks, files, sessions, most, f->need, FIGMORELLA_NEEDS);
    f->state = (uint64_t *)memory;
    f->map = f->state + f->need[0];
    f->table = (uint32_t *)(void *)(f->map + f->need[2]);
    f->selected = f->table + f->need[4];
    f->owner = (uint16_t *)(void *)(f->selected + f->need[5]);
    f->disk = (uint8_t *)(void *)(f->owner + f->need[3]);
    f->held = f->disk + f->need[1];
    f->counts[0] = 0;
    f->counts[1] = 0;
    return 0;
}

static inline uint8_t figmorella_server_make(struct figmorella *f, size_t blocks, size_t files, size_t sessions, size_t most)
{
    return figmorella_make(blocks, files, sessions, most, f->state, f->need[0], f->disk, f->need[1], f->map, f->need[2], f->owner,
                           f->need[3], f->table, f->need[4], f->selected, f->need[5], f->held, f->need[6]);
}

static inline uint8_t figmorella_server_open(struct figmorella *f, size_t session, uint32_t clock)
{
    return figmorella_open(f->state, f->need[0], f->disk, f->need[1], f->map, f->need[2], f->owner, f->need[3], f->table, f->need[4],
                           f->selected, f->need[5], f->held, f->need[6], f->out, FIGMORELLA_PACKET, f->counts, FIGMORELLA_COUNTS, session,
                           clock);
}

static inline uint8_t figmorella_server_receive(struct figmorella *f, size_t session, uint32_t clock, const uint8_t *input, size_t n)
{
    return figmorella_receive(f->state, f->need[0], f->disk, f->need[1], f->map, f->need[2], f->owner, f->need[3], f->table, f->need[4],
                              f->selected, f->need[5], f->held, f->need[6], f->out, FIGMORELLA_PACKET, f->counts, FIGMORELLA_COUNTS,
                              session, clock, input, n);
}

static inline uint8_t figmorella_server_request(struct figmorella *f, size_t session)
{
    return figmorella_request(f->state, f->need[0], f->disk, f->need[1], f->map, f->need[2], f->owner, f->need[3], f->table, f->need[4],
                              f->selected, f->need[5], f->held, f->need[6], f->out, FIGMORELLA_PACKET, f->counts, FIGMORELLA_COUNTS,
                              session);
}

static inline uint8_t figmorella_server_lose(struct figmorella *f, size_t session)
{
    return figmorella_lose(f->state, f->need[0], f->disk, f->need[1], f->map, f->need[2], f->owner, f->need[3], f->table, f->need[4],
                           f->selected, f->need[5], f->held, f->need[6], f->counts, FIGMORELLA_COUNTS, session);
}

static inline uint8_t figmorella_server_free(struct figmorella *f)
{
    return figmorella_free(f->state, f->need[0], f->map, f->need[2], f->counts, FIGMORELLA_COUNTS);
}

#ifdef __cplusplus
}
#endif

#endif
