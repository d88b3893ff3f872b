/* Tilgurap for a host in C or C++: the layer between a plant's scheduler and one driver. C99 and later, C++11 and later, for
 * machines with 64 bits. Link it with libtilgurap.a, which needs of C's library memcpy and memset alone.
 *
 *
 * HOW A HOST USES IT
 *
 * A host is the program between callers, which ask for something (open a valve, dose 20 litres), and a driver, which does it.
 * It owns one state for each driver, an array of TILGURAP_STATE_WORDS words, and puts every event to it by one of the functions
 * below. The layer keeps who waits for what. It does nothing by itself, starts no thread, takes no memory and calls nobody.
 *
 * 1. Before the first event compare TILGURAP_ABI with tilgurap_abi(). Where they differ this header is not the library's: stop.
 *    The number rises with every change of a function, of a struct that crosses or of the state's words.
 *
 * 2. Make a fresh state. The queue's words are needed for that alone:
 *
 *        static uint64_t words[TILGURAP_STATE_WORDS];
 *        static const uint64_t no_entries[TILGURAP_QUEUE_WORDS];
 *        tilgurap_packed(tilgurap_fresh(scheme), no_entries, words);
 *
 *    From then on nobody but these functions writes to the words. What is proved of a run of events is proved of words that
 *    came from a fresh state in this way.
 *
 * 3. Put the events to it, one at a time:
 *
 *        who     what happens                                  function
 *        ------  --------------------------------------------  --------------------------------------------------------------
 *        caller  calls the driver                              tilgurap_call, or tilgurap_next_id and tilgurap_submit;
 *                                                              tilgurap_call_generic, tilgurap_translate_std_fs_call
 *        caller  sends descriptions, or asks for some          tilgurap_kfdwrite, tilgurap_kfdread
 *        caller  asks for a mapping                            tilgurap_request_fmap
 *        caller  is woken, and fetches its reply or waits on   tilgurap_wake with killed 0
 *        caller  is killed                                     tilgurap_wake with killed 1, then tilgurap_ended
 *        host    closes a file of the driver's, or detaches    tilgurap_close, tilgurap_detach
 *        host    opens descriptions, copies and drops holds    tilgurap_open, tilgurap_copy, tilgurap_drop, tilgurap_put
 *        driver  reads what it is asked for                    tilgurap_read, then tilgurap_sqe
 *        driver  replies                                       tilgurap_cqe_bytes, then tilgurap_write
 *        driver  gives or takes a call's descriptions          tilgurap_call_fdwrite, tilgurap_call_fdread
 *        driver  supplies a mapping                            tilgurap_provide_mmap
 *
 * 4. Look at the answer's kind first: TILGURAP_ANSWER_DONE with a value, TILGURAP_ANSWER_REFUSED with one of the numbers
 *    TILGURAP_REFUSAL_..., and the three others, which only a read and a wake give. A refused event has changed nothing, but
 *    for the four that are told at their functions: EINTR of a wake, ESRCH of a supply, a refused tilgurap_call_fdwrite, and a
 *    refused entry with a descriptor.
 *
 * 5. Carry out the effects. An effect is three words, its kind, a and b:
 *
 *        kind                       a               b                    what the host has to do
 *        -------------------------  --------------  -------------------  ----------------------------------------------------
 *        TILGURAP_EFFECT_NONE       0               0                    nothing
 *        TILGURAP_EFFECT_WAKE       caller          tag                  wake the caller: it fetches its reply (tilgurap_wake)
 *        TILGURAP_EFFECT_UNMAP      first page      how many pages       unmap the pages that a killed call had lent
 *        TILGURAP_EFFECT_CLOSE      description     0                    close it, nobody holds it any more; where it is a file
 *                                                                        of this driver's, tell it so by tilgurap_close
 *        TILGURAP_EFFECT_EVENT      file's number   TILGURAP_EVENT_...   pass the file's event on
 *        TILGURAP_EFFECT_READABLE   scheme          TILGURAP_EVENT_...   tell the driver that it has something to read
 *
 *    Most events make at most one, which comes with the answer. A write stores its effects in words that it is lent; they count
 *    also where the write is refused. Carry them out in order, and a WAKE before its caller calls again: later it would ask for
 *    the caller's next call, and cancel it. Not every last hold makes a CLOSE: one that is dropped with a replaced list, with a
 *    refused tilgurap_call_fdwrite or entry, with an obtain into a handle that is in use or over 63, or with the descriptor of a
 *    reply to an ended caller makes none, as in the Rust.
 *
 * 6. Tell the layer of an ended caller at once. Kill a caller so: tilgurap_wake with killed 1 for each call that it waits for,
 *    which still hands a reply over that is there; then tilgurap_ended; no write of the driver in between. A killed call keeps
 *    its slot until its driver has replied, so that the late reply reaches nobody else. A reply that comes between the two, or
 *    that is there when a caller is reported, is kept for a caller that can no longer fetch it: its slot stays taken for good.
 *    So does a slot that was reserved and whose caller ended before it submitted.
 *
 * Never pass the opcodes TILGURAP_OP_REQUEST_MMAP, TILGURAP_OP_CANCEL, TILGURAP_OP_CLOSE_MSG and TILGURAP_OP_DETACH to
 * tilgurap_call or tilgurap_submit. The layer takes them, but the driver could not tell such an entry from the layer's own,
 * would not reply to it, and the caller would wait for good.
 *
 * Threads: no two functions on the same words at once; a host with threads takes a lock around each. (Functions that take the
 * words as const may run beside each other.) Functions on different states may run at the same time: the library has no memory
 * of its own, and nothing is shared.
 *
 * Pointers are never null, also those with the length 0, and what is lent to one function does not overlap.
 *
 * Stack: TILGURAP_STACK_STEP bytes do for every function but these: tilgurap_fresh, tilgurap_packed and tilgurap_plain take up
 * to TILGURAP_STACK_STATE, and beside that the caller holds the TilgurapState that crosses by value; tilgurap_run takes up to
 * TILGURAP_STACK_RUN.
 *
 * Restart: the words are all that there is. They may be saved between two events and gone on with later, in another process
 * too, by a library with the same TILGURAP_ABI. But a saved state is only as good as the driver's memory of its calls: what it
 * has read since the save it is asked for again, and a dose is given twice; what it has replied to since, or has forgotten,
 * waits for good and keeps its slot. And a fresh state goes only with a driver that has forgotten every call: a late reply by
 * an old tag would serve a new call.
 *
 * A driver that dies while the host goes on leaves calls that wait. See to it that nothing of its own is written any more. Read
 * the queue empty, and keep the map requests among it for the driver that comes next; then write an error for each tag in the
 * words of outstanding calls and of orphans (tilgurap_status), an entry of TILGURAP_CQE_REGULAR with tilgurap_mux_error as its
 * result. A map request that the dead one had read stays until somebody supplies a page.
 *
 *
 * WHAT A DRIVER MUST DO
 *
 * A driver reads submission entries (TilgurapSqe, TILGURAP_SQE_BYTES bytes each) and writes completion entries (TilgurapCqe,
 * TILGURAP_CQE_BYTES bytes each). The tag of an entry is the number of its call's slot, so each reply goes to whoever holds
 * that slot. What an entry wants is told by its opcode, never by its tag or its flags; tilgurap_wants() tells it:
 *
 *   - A call wants one reply, by the tag of its entry: exactly one, also if it fails, also after a Cancel for it, also if its
 *     caller was killed. A second reply to a tag is refused only until the slot is given out again; then it serves the next call
 *     that has the tag. A reply is an entry of kind 0, 1, 4 or 5; kinds 2 and 3 serve no call.
 *   - TILGURAP_OP_CLOSE_MSG and TILGURAP_OP_DETACH want NO reply. They come with tag 0 and without a flag that says so. They
 *     have no slot, and tag 0 is that of some other call: a reply by their tag would serve the call in slot 0, whose caller
 *     would take a closed file for a finished dose. That is the accident that examples/host.c shows.
 *   - TILGURAP_OP_CANCEL bears the tag of the call that is to be given up, and wants no reply of its own. The call still wants
 *     its one reply: TILGURAP_ERRNO_ECANCELED where it was given up, or whatever it came to.
 *   - TILGURAP_OP_REQUEST_MMAP, a map request, wants a supply: tilgurap_provide_mmap with its tag. A reply to it is refused
 *     with TILGURAP_REFUSAL_EINVAL and stops the write.
 *
 * A refused entry hides those behind it in the same write: they are not looked at, and their calls go on waiting. So write
 * entries one by one. Or, where the answer counts fewer bytes than the whole entries that were written (or refuses the first),
 * pass the entry there, report it, and write the rest.
 */
#ifndef TILGURAP_H
#define TILGURAP_H

#include <stdbool.h>
#include <stddef.h>
#include <stdint.h>

/* The number of the interface that this header declares: to be compared with tilgurap_abi() before the first event. */
#define TILGURAP_ABI 3

/* Limits */

#define TILGURAP_SLOTS 64          /* calls and map requests under way; tags are 0 to 63, a greater one counts as vacant */
#define TILGURAP_QUEUE_ENTRIES 128 /* entries that the driver has not read */
#define TILGURAP_DESCRIPTIONS 64   /* descriptions, 0 to 63 */
#define TILGURAP_HANDLES 64        /* the driver's handles, 0 to 63, each a place for one description */
#define TILGURAP_LIST 16           /* descriptions that go along with one call */
#define TILGURAP_HOLDS 65535       /* holds of one description */
#define TILGURAP_EFFECTS 18        /* effects that one completion entry may make */
#define TILGURAP_EFFECT_WORDS 54   /* words to be lent for them, for each whole completion entry of a write */
#define TILGURAP_STATE_WORDS 2060  /* words of a state */
#define TILGURAP_QUEUE_WORDS 1024  /* words of the queue beside a TilgurapState */
#define TILGURAP_STATUS_WORDS 10   /* words that tilgurap_status stores */
#define TILGURAP_SQE_BYTES 64      /* bytes of a submission entry */
#define TILGURAP_CQE_BYTES 16      /* bytes of a completion entry */
#define TILGURAP_ERRNO_FIRST 1     /* errors that a reply may have, */
#define TILGURAP_ERRNO_LAST 132    /* from this to that */
#define TILGURAP_PAGE_BYTES 4096   /* bytes of a page */

#define TILGURAP_STACK_STEP 1024   /* bytes of stack: every step */
#define TILGURAP_STACK_STATE 16384 /* tilgurap_fresh, tilgurap_packed, tilgurap_plain */
#define TILGURAP_STACK_RUN 49152   /* tilgurap_run */

/* Kinds of an answer */

#define TILGURAP_ANSWER_DONE 0       /* accepted; the value is told at each function */
#define TILGURAP_ANSWER_REFUSED 1    /* the value is a TILGURAP_REFUSAL_..., or an errno where a reply or a word is read */
#define TILGURAP_ANSWER_WOULD_WAIT 2 /* of a read: the queue is empty, the driver waits until there is something to read */
#define TILGURAP_ANSWER_BLOCKED 3    /* of a wake: no reply yet, the caller goes on waiting */
#define TILGURAP_ANSWER_REPLIED 4    /* of a wake: the reply stands beside the answer, and the slot is vacant again */

/* Why an event is refused */

#define TILGURAP_REFUSAL_ENOENT 2               /* the call does not wait any more, or no description is listed */
#define TILGURAP_REFUSAL_ESRCH 3                /* the caller of a map request has ended; its slot was vacated */
#define TILGURAP_REFUSAL_EINTR 4                /* a killed caller's call returns; it keeps its slot until its driver replied */
#define TILGURAP_REFUSAL_EAGAIN 11              /* nothing is there to read, and the read was not to wait */
#define TILGURAP_REFUSAL_EINVAL 22              /* an argument, an entry or a tag that is not valid there */
#define TILGURAP_REFUSAL_EBADFD 77              /* no call waits under this tag */
#define TILGURAP_REFUSAL_EOPNOTSUPP 95          /* no such standard file system call */
#define TILGURAP_REFUSAL_NOT_THIS_CALLERS 201   /* the slot is not this caller's, or its caller ended or its call returned */
#define TILGURAP_REFUSAL_NO_VACANT_SLOT 202     /* all TILGURAP_SLOTS slots are given out */
#define TILGURAP_REFUSAL_QUEUE_FULL 203         /* TILGURAP_QUEUE_ENTRIES entries are unread */
#define TILGURAP_REFUSAL_FEW_EFFECT_WORDS 204   /* fewer than TILGURAP_EFFECT_WORDS words were lent for each whole entry */
#define TILGURAP_REFUSAL_OUT_OF_RULES 205       /* an opcode, description, handle, hold or yes-or-no word that is not valid so */
#define TILGURAP_REFUSAL_MANY_DESCRIPTIONS 206  /* more than TILGURAP_LIST descriptions in a list */
#define TILGURAP_REFUSAL_HOLDS_FULL 207         /* the description has TILGURAP_HOLDS holds already */

/* Kinds of an effect: the table stands at the top */

#define TILGURAP_EFFECT_NONE 0
#define TILGURAP_EFFECT_WAKE 1
#define TILGURAP_EFFECT_UNMAP 2
#define TILGURAP_EFFECT_CLOSE 3
#define TILGURAP_EFFECT_EVENT 4
#define TILGURAP_EFFECT_READABLE 5

/* What a driver is asked for. Those marked with * are the layer's own: never to be passed to tilgurap_call or tilgurap_submit.
 * */

#define TILGURAP_OP_CLOSE 3
#define TILGURAP_OP_DUP 4
#define TILGURAP_OP_READ 5
#define TILGURAP_OP_WRITE 6
#define TILGURAP_OP_FSIZE 7
#define TILGURAP_OP_FCHMOD 8
#define TILGURAP_OP_FCHOWN 9
#define TILGURAP_OP_FCNTL 10
#define TILGURAP_OP_FEVENT 11
#define TILGURAP_OP_SENDFD 12
#define TILGURAP_OP_FPATH 13
#define TILGURAP_OP_FRENAME 14
#define TILGURAP_OP_FSTAT 15
#define TILGURAP_OP_FSTATVFS 16
#define TILGURAP_OP_FSYNC 17
#define TILGURAP_OP_FTRUNCATE 18
#define TILGURAP_OP_FUTIMENS 19
#define TILGURAP_OP_MMAP_PREP 20
#define TILGURAP_OP_REQUEST_MMAP 21 /* * by tilgurap_request_fmap: wants a supply */
#define TILGURAP_OP_MREMAP 22
#define TILGURAP_OP_MUNMAP 23
#define TILGURAP_OP_MSYNC 24
#define TILGURAP_OP_CANCEL 25 /* * by a wake without a reply: its tag is that of the call to be given up; wants nothing */
#define TILGURAP_OP_GETDENTS 26
#define TILGURAP_OP_CLOSE_MSG 27 /* * by tilgurap_close: tag 0, wants nothing */
#define TILGURAP_OP_CALL 28
#define TILGURAP_OP_OPEN_AT 29
#define TILGURAP_OP_FLINK 30
#define TILGURAP_OP_RECVFD 31
#define TILGURAP_OP_UNLINK_AT 32
#define TILGURAP_OP_STD_FS_CALL 33
#define TILGURAP_OP_DETACH 34 /* * by tilgurap_detach: tag 0, wants nothing */

/* Flags of a submission entry */

#define TILGURAP_SQE_ONEWAY 1       /* a Cancel has it. Set by a host it changes nothing: its call waits for a reply */
#define TILGURAP_SQE_MULTIPLE_IDS 2 /* the call is about two files */

/* Flags of tilgurap_kfdwrite and tilgurap_kfdread. Other bits are not looked at. */

#define TILGURAP_CALL_FD_EXCLUSIVE 0x1000 /* of descriptions that are sent: nobody else is to hold them */
#define TILGURAP_CALL_FD_UPPER 0x4000     /* of descriptions that are asked for: into the upper file table */

/* What the driver is told of them, as the second argument of TILGURAP_OP_SENDFD and of TILGURAP_OP_RECVFD. Whether it is so, and
 * where descriptions go, is the host's to see to. */

#define TILGURAP_SEND_FD_EXCLUSIVE 1
#define TILGURAP_RECV_FD_UPPER_TBL 2

/* Kinds of a completion entry: the low three bits of its flags. The upper five are not looked at; 6 and 7 are refused. */

#define TILGURAP_CQE_REGULAR 0    /* reply: the result is a word, or an error by tilgurap_mux_error */
#define TILGURAP_CQE_DESCRIPTOR 1 /* reply: the description in the driver's handle that the result names, which is empty then */
#define TILGURAP_CQE_EVENT 2      /* no reply: an event of the file that the result names; its flags stand in place of the tag */
#define TILGURAP_CQE_OBTAIN 3     /* no reply: the call's first description moves to the handle that the result names */
#define TILGURAP_CQE_MANY 4       /* reply: the call's list of descriptions */
#define TILGURAP_CQE_NOTICE 5     /* reply: as regular, and the driver asks to be told when the file is detached */

/* Events of a file or of the driver's queue */

#define TILGURAP_EVENT_READ 1
#define TILGURAP_EVENT_WRITE 2
#define TILGURAP_EVENT_HUP 4
#define TILGURAP_EVENT_ERR 8
#define TILGURAP_EVENT_NVAL 16

/* Flags of an obtain entry, in its three extra bytes, the lowest first */

#define TILGURAP_OBTAIN_MANUAL_FD 1
#define TILGURAP_OBTAIN_EXCLUSIVE 2
#define TILGURAP_OBTAIN_UPPER_TBL 4
#define TILGURAP_OBTAIN_CLOEXEC 8

/* Flag of tilgurap_read: an empty queue is refused, with TILGURAP_REFUSAL_EAGAIN, and the driver does not wait. Other bits are
 * not looked at. */

#define TILGURAP_READ_NONBLOCK 0x40000

/* Errors of a reply that have a meaning here. Numbers of errors are the Redox kernel's, not those of this machine's <errno.h>.
 * */

#define TILGURAP_ERRNO_EINTR 4       /* what a cancelled call reads; of a call that was not cancelled it reads as EIO */
#define TILGURAP_ERRNO_EIO 5         /* also what a reply of the wrong shape reads */
#define TILGURAP_ERRNO_EINVAL 22     /* what unknown flags of an opened file read */
#define TILGURAP_ERRNO_ECANCELED 125 /* given up, as a Cancel asked for; reads as EINTR where the call was cancelled */

/* Kinds of a reply */

#define TILGURAP_REPLY_WORD 0       /* success with a word */
#define TILGURAP_REPLY_ERROR 1      /* the word is an errno */
#define TILGURAP_REPLY_DESCRIPTOR 2 /* the word is a description, the hold of which is the host's now */
#define TILGURAP_REPLY_MANY 3       /* descriptions in the list beside it, the holds of which are the host's now */

/* What opening gave */

#define TILGURAP_OPENED_LOCAL 0       /* a file of the driver's own: the value is its number, flags is 0 or TILGURAP_NEW_FD_... */
#define TILGURAP_OPENED_DESCRIPTION 1 /* a description of somebody else's: the value names it */
#define TILGURAP_OPENED_REFUSED 2     /* the value is an errno */

#define TILGURAP_NEW_FD_POSITIONED 1 /* the file has a position */

/* What a slot is used for */

#define TILGURAP_SLOT_VACANT 0
#define TILGURAP_SLOT_PLACEHOLDER 1 /* given out to a call that is not submitted yet */
#define TILGURAP_SLOT_WAITING 2     /* a call that waits for its driver's reply */
#define TILGURAP_SLOT_RESPONDED 3   /* a call whose reply waits to be fetched */
#define TILGURAP_SLOT_FMAP 4        /* a map request */

/* What an entry wants of the driver that has read it */
enum TilgurapWants {
    TILGURAP_WANTS_NOTHING, /* it is a notice: a reply by its tag would serve another call */
    TILGURAP_WANTS_REPLY,   /* one completion entry by its tag */
    TILGURAP_WANTS_SUPPLY   /* tilgurap_provide_mmap by its tag */
};

static inline enum TilgurapWants tilgurap_wants(uint8_t opcode)
{
    switch (opcode) {
    case TILGURAP_OP_CANCEL:
    case TILGURAP_OP_CLOSE_MSG:
    case TILGURAP_OP_DETACH:
        return TILGURAP_WANTS_NOTHING;
    case TILGURAP_OP_REQUEST_MMAP:
        return TILGURAP_WANTS_SUPPLY;
    default:
        return TILGURAP_WANTS_REPLY;
    }
}

/* The structs that cross, by value */

/* What a call or a map request is known by until its slot is given out again: the slot's number */
typedef struct TilgurapTag {
    uint64_t number;
} TilgurapTag;

/* Six arguments of a call: the driver and the caller agree on what they mean, the first is mostly the file's number */
typedef struct TilgurapArgs {
    uint64_t at[6];
} TilgurapArgs;

typedef struct TilgurapAnswerWords {
    uint64_t kind;  /* TILGURAP_ANSWER_... */
    uint64_t value; /* 0 where the kind has none */
} TilgurapAnswerWords;

typedef struct TilgurapEffect {
    uint64_t kind; /* TILGURAP_EFFECT_... */
    uint64_t a;
    uint64_t b;
} TilgurapEffect;

/* What most events answer, and the effect that they made */
typedef struct TilgurapStepWords {
    TilgurapAnswerWords answer;
    TilgurapEffect effect;
} TilgurapStepWords;

/* A driver's reply, to be read by tilgurap_into_regular and its like */
typedef struct TilgurapReply {
    uint8_t kind;   /* TILGURAP_REPLY_... */
    uint8_t extra0; /* the first of the three bytes that the driver sent along */
    bool notice;    /* the driver asks to be told when a descriptor of the file is detached */
    uint64_t word;
} TilgurapReply;

/* Descriptions: the first len of them */
typedef struct TilgurapList {
    uint8_t at[TILGURAP_LIST];
    uint8_t len;
} TilgurapList;

/* What a wake answers */
typedef struct TilgurapWakeWords {
    TilgurapAnswerWords answer;
    TilgurapReply reply; /* for TILGURAP_ANSWER_REPLIED, else zeros */
    TilgurapList fds;    /* for TILGURAP_REPLY_MANY, else empty */
    TilgurapEffect effect;
} TilgurapWakeWords;

/* What a write answers */
typedef struct TilgurapCompleted {
    TilgurapAnswerWords answer;
    size_t words; /* so many of the lent words hold effects, three to each */
} TilgurapCompleted;

/* A reply to tilgurap_call_generic as it is read */
typedef struct TilgurapRegular {
    TilgurapAnswerWords answer;
    bool notice; /* as in TilgurapReply, also beside an error */
} TilgurapRegular;

typedef struct TilgurapOpenedWords {
    uint64_t kind; /* TILGURAP_OPENED_... */
    uint64_t value;
    uint8_t flags;
} TilgurapOpenedWords;

/* A submission entry: what a driver is asked for */
typedef struct TilgurapSqe {
    uint8_t opcode;    /* TILGURAP_OP_... */
    uint8_t sqe_flags; /* TILGURAP_SQE_... */
    uint32_t tag;      /* the call's, by which the reply has to go */
    uint64_t args[6];
    uint64_t caller; /* the caller's process number: the pid of the call */
} TilgurapSqe;

/* A completion entry: what a driver tells */
typedef struct TilgurapCqe {
    uint8_t flags;        /* TILGURAP_CQE_... */
    uint8_t extra_raw[3]; /* the first goes along with a regular reply; all three are the flags of an obtain */
    uint32_t tag;
    uint64_t result;
} TilgurapCqe;

/* How a run over bytes ended: 0 or a refusal, the place in the input, the bytes written */
typedef struct TilgurapRunEnd {
    uint64_t number;
    uint64_t place;
    uint64_t written;
} TilgurapRunEnd;

/* The state as a struct, to be made fresh and to be looked at */

/* Pages lent to a call: the first, and how many */
typedef struct TilgurapPageSpan {
    uint64_t base;
    uint64_t count;
} TilgurapPageSpan;

typedef struct TilgurapSlot {
    uint8_t state; /* TILGURAP_SLOT_... */
    uint32_t caller;
    bool canceling; /* the driver was asked to give the call up, or its caller was killed */
    bool ended;     /* the caller has ended */
    bool returned;  /* the call returned before its driver replied */
    TilgurapPageSpan span;
    TilgurapReply reply;
    TilgurapList fds;
} TilgurapSlot;

/* The holds of each description: all of them, and the host's own ("outside") */
typedef struct TilgurapHolds {
    uint64_t holds[TILGURAP_DESCRIPTIONS];
    uint64_t outside[TILGURAP_DESCRIPTIONS];
} TilgurapHolds;

/* The slots, and the chain of vacated ones */
typedef struct TilgurapTable {
    TilgurapSlot slots[TILGURAP_SLOTS];
    uint64_t next[TILGURAP_SLOTS];
    uint64_t head;
    TilgurapHolds holds;
} TilgurapTable;

/* 0 for an empty handle, else the description and one */
typedef struct TilgurapHandles {
    uint64_t at[TILGURAP_HANDLES];
} TilgurapHandles;

/* Where the oldest unread entry stands, and how many there are */
typedef struct TilgurapWaitQueue {
    uint64_t first;
    uint64_t len;
} TilgurapWaitQueue;

typedef struct TilgurapDriver {
    uint64_t scheme;
    TilgurapHandles handles;
    TilgurapWaitQueue queue;
} TilgurapDriver;

typedef struct TilgurapState {
    TilgurapDriver driver;
    TilgurapTable table;
} TilgurapState;

/* Widths as the library has them, where the compiler can be asked */
#if defined(__cplusplus)
#define TILGURAP_CHECK(name, holds) static_assert(holds, #name)
#elif defined(__STDC_VERSION__) && __STDC_VERSION__ >= 201112L
#define TILGURAP_CHECK(name, holds) _Static_assert(holds, #name)
#else
#define TILGURAP_CHECK(name, holds) typedef char tilgurap_check_##name[(holds) ? 1 : -1]
#endif
#define TILGURAP_SIZE(name, bytes) TILGURAP_CHECK(size_of_##name, sizeof(Tilgurap##name) == (bytes))
#define TILGURAP_PLACE(name, field, byte) TILGURAP_CHECK(name##_##field, offsetof(Tilgurap##name, field) == (byte))

TILGURAP_CHECK(size_of_a_length, sizeof(size_t) == 8 && sizeof(bool) == 1);
TILGURAP_SIZE(Tag, 8);
TILGURAP_SIZE(Args, 48);
TILGURAP_SIZE(AnswerWords, 16);
TILGURAP_SIZE(Effect, 24);
TILGURAP_SIZE(StepWords, 40);
TILGURAP_SIZE(Reply, 16);
TILGURAP_PLACE(Reply, extra0, 1);
TILGURAP_PLACE(Reply, notice, 2);
TILGURAP_PLACE(Reply, word, 8);
TILGURAP_SIZE(List, 17);
TILGURAP_PLACE(List, len, 16);
TILGURAP_SIZE(WakeWords, 80);
TILGURAP_PLACE(WakeWords, reply, 16);
TILGURAP_PLACE(WakeWords, fds, 32);
TILGURAP_PLACE(WakeWords, effect, 56);
TILGURAP_SIZE(Completed, 24);
TILGURAP_SIZE(Regular, 24);
TILGURAP_PLACE(Regular, notice, 16);
TILGURAP_SIZE(OpenedWords, 24);
TILGURAP_PLACE(OpenedWords, flags, 16);
TILGURAP_SIZE(Sqe, TILGURAP_SQE_BYTES);
TILGURAP_PLACE(Sqe, tag, 4);
TILGURAP_PLACE(Sqe, args, 8);
TILGURAP_PLACE(Sqe, caller, 56);
TILGURAP_SIZE(Cqe, TILGURAP_CQE_BYTES);
TILGURAP_PLACE(Cqe, tag, 4);
TILGURAP_PLACE(Cqe, result, 8);
TILGURAP_SIZE(RunEnd, 24);
TILGURAP_SIZE(PageSpan, 16);
TILGURAP_SIZE(Slot, 72);
TILGURAP_PLACE(Slot, caller, 4);
TILGURAP_PLACE(Slot, canceling, 8);
TILGURAP_PLACE(Slot, ended, 9);
TILGURAP_PLACE(Slot, returned, 10);
TILGURAP_PLACE(Slot, span, 16);
TILGURAP_PLACE(Slot, reply, 32);
TILGURAP_PLACE(Slot, fds, 48);
TILGURAP_SIZE(Holds, 1024);
TILGURAP_SIZE(Table, 6152);
TILGURAP_SIZE(Handles, 512);
TILGURAP_SIZE(WaitQueue, 16);
TILGURAP_SIZE(Driver, 536);
TILGURAP_SIZE(State, 6688);

#undef TILGURAP_PLACE
#undef TILGURAP_SIZE
#undef TILGURAP_CHECK

#ifdef __cplusplus
extern "C" {
#endif

/* Below, "answers" tells the value of TILGURAP_ANSWER_DONE; refusals, answers and effects are named without their prefix, as
 * OUT_OF_RULES for TILGURAP_REFUSAL_OUT_OF_RULES and READABLE for TILGURAP_EFFECT_READABLE. Refusals stand in the order in which
 * they are looked for. */

/* The number of the library's interface: TILGURAP_ABI where this header is its own. */
uint64_t tilgurap_abi(void);

/* THE STATE */

/* A fresh state: every slot vacant, the queue and the handles empty, no description open. The scheme is the number that the
 * driver has in the host; TILGURAP_EFFECT_READABLE names it. */
TilgurapState tilgurap_fresh(uint64_t scheme);

/* Stores a state and its queue in the words. */
void tilgurap_packed(TilgurapState s, const uint64_t queue[TILGURAP_QUEUE_WORDS], uint64_t words[TILGURAP_STATE_WORDS]);

/* The state that the words hold, to be looked at; the words of its queue are stored in queue, eight to an entry. */
TilgurapState tilgurap_plain(const uint64_t words[TILGURAP_STATE_WORDS], uint64_t queue[TILGURAP_QUEUE_WORDS]);

/* Five words, each with its count of ones, in this order: Placeholder, outstanding, Responded, Fmap, orphans. Bit N of a word is
 * set where slot N counts in it. Outstanding calls are the Waiting ones whose caller has not ended and that have not returned with
 * EINTR; the other Waiting ones are orphans: nobody will fetch their reply, and they keep their slot until the driver has replied.
 * No slot is in two words; one in none of them is vacant. */
void tilgurap_status(const uint64_t words[TILGURAP_STATE_WORDS], uint64_t out[TILGURAP_STATUS_WORDS]);

/* DESCRIPTIONS: an open description has holds, the host's own ("outside"), those of calls' lists and those of the driver's
 * handles. Each function answers 0 and makes no effect. */

/* Opens a description that is not open, with one outside hold. Refused: OUT_OF_RULES. */
TilgurapStepWords tilgurap_open(uint64_t words[TILGURAP_STATE_WORDS], uint64_t description);

/* Copies an outside hold. Refused: OUT_OF_RULES, HOLDS_FULL. */
TilgurapStepWords tilgurap_copy(uint64_t words[TILGURAP_STATE_WORDS], uint64_t description);

/* Drops an outside hold. With the last hold the description is no longer open; the host, which dropped it, is not told to close
 * it. Refused: OUT_OF_RULES. */
TilgurapStepWords tilgurap_drop(uint64_t words[TILGURAP_STATE_WORDS], uint64_t description);

/* Puts an outside hold into an empty handle of the driver's. Refused: OUT_OF_RULES. */
TilgurapStepWords tilgurap_put(uint64_t words[TILGURAP_STATE_WORDS], uint64_t description, uint64_t handle);

/* CALLERS. A caller is a number that the host gives to whoever waits; uid, gid and pid are for the driver. */

/* Reports that a caller has ended, at once. Its slots are marked: nobody is woken for them, and the driver's reply vacates
 * them. Answers 0. Never refused. */
TilgurapStepWords tilgurap_ended(uint64_t words[TILGURAP_STATE_WORDS], uint32_t caller);

/* Gives a slot out, to be submitted later. Answers its tag. Refused: NO_VACANT_SLOT. */
TilgurapStepWords tilgurap_next_id(uint64_t words[TILGURAP_STATE_WORDS], uint32_t caller);

/* Submits the call of a slot that was given out to this caller: the entry is queued as it is given, and the call waits for its
 * one reply. The fds_len descriptions in fds are taken from outside holds. Answers the tag, and makes READABLE.
 * Refused: OUT_OF_RULES, MANY_DESCRIPTIONS, NOT_THIS_CALLERS, QUEUE_FULL. */
TilgurapStepWords tilgurap_submit(
    uint64_t words[TILGURAP_STATE_WORDS],
    const uint64_t *fds,
    size_t fds_len,
    TilgurapTag tag,
    uint32_t caller,
    uint64_t opcode,
    uint8_t flags,
    TilgurapArgs args,
    uint64_t pid);

/* Gives a slot out and submits it in one. The sixth argument is overwritten by uid + gid * 2^32. Answers the tag, and makes
 * READABLE. Refused: OUT_OF_RULES, MANY_DESCRIPTIONS, NO_VACANT_SLOT, QUEUE_FULL. */
TilgurapStepWords tilgurap_call(
    uint64_t words[TILGURAP_STATE_WORDS],
    const uint64_t *fds,
    size_t fds_len,
    uint32_t caller,
    uint64_t opcode,
    TilgurapArgs args,
    uint32_t uid,
    uint32_t gid,
    uint64_t pid);

/* A call of the driver's own kind (TILGURAP_OP_CALL) about one or two files, numbers of the driver's own, with a buffer at base
 * of len bytes. The entry's arguments are the file, base, len and three words of metadata (0 where there are fewer); with two
 * files two words of metadata and the second file, and the flag TILGURAP_SQE_MULTIPLE_IDS. Answers the tag, and makes READABLE.
 * Refused: EINVAL for no file or more than two, NO_VACANT_SLOT, QUEUE_FULL. */
TilgurapStepWords tilgurap_call_generic(
    uint64_t words[TILGURAP_STATE_WORDS],
    const uint64_t *fds,
    size_t fds_len,
    const uint64_t *metadata,
    size_t metadata_len,
    uint32_t caller,
    uint64_t pid,
    uint64_t base,
    uint64_t len);

/* A standard file system call (TILGURAP_OP_STD_FS_CALL), else as tilgurap_call_generic. The metadata are its kind, 1 to 8 or 10
 * to 16, and two arguments. Refused: EINVAL for fewer than three words, EOPNOTSUPP for another kind, then as there. */
TilgurapStepWords tilgurap_translate_std_fs_call(
    uint64_t words[TILGURAP_STATE_WORDS],
    const uint64_t *fds,
    size_t fds_len,
    const uint64_t *metadata,
    size_t metadata_len,
    uint32_t caller,
    uint64_t pid,
    uint64_t base,
    uint64_t len);

/* Sends descriptions with a call (TILGURAP_OP_SENDFD) about the driver's file of that number; they are taken from outside holds. The
 * entry's arguments are number, the flags that the driver is told, the first word of metadata (0 where there is none), fds_len, 0
 * and uid + gid * 2^32. Answers the tag, and makes READABLE. Refused: OUT_OF_RULES, MANY_DESCRIPTIONS, NO_VACANT_SLOT,
 * QUEUE_FULL. */
TilgurapStepWords tilgurap_kfdwrite(
    uint64_t words[TILGURAP_STATE_WORDS],
    const uint64_t *fds,
    size_t fds_len,
    const uint64_t *metadata,
    size_t metadata_len,
    uint32_t caller,
    uint64_t number,
    uint64_t flags,
    uint32_t uid,
    uint32_t gid,
    uint64_t pid);

/* Asks for descriptions by a call (TILGURAP_OP_RECVFD) about the driver's file of that number, with room for as many as len bytes
 * hold, eight for each. The entry's arguments are number, the flags that the driver is told, len / 8, two words of metadata (0 where
 * there are fewer) and uid + gid * 2^32. Answers the tag, and makes READABLE. Refused: EINVAL for a len that is no multiple of 8,
 * NO_VACANT_SLOT, QUEUE_FULL. */
TilgurapStepWords tilgurap_kfdread(
    uint64_t words[TILGURAP_STATE_WORDS],
    const uint64_t *metadata,
    size_t metadata_len,
    uint32_t caller,
    uint64_t number,
    uint64_t len,
    uint64_t flags,
    uint32_t uid,
    uint32_t gid,
    uint64_t pid);

/* Asks the driver for a mapping of its file id. It is no call: nobody is woken, no reply serves it, and tilgurap_provide_mmap
 * alone vacates its slot. The entry's arguments are id, flags, pages, 0, 0 and uid + gid * 2^32. Answers the tag, and makes
 * READABLE. Refused: NO_VACANT_SLOT, QUEUE_FULL. */
TilgurapStepWords tilgurap_request_fmap(
    uint64_t words[TILGURAP_STATE_WORDS],
    uint32_t caller,
    uint64_t id,
    uint64_t pages,
    uint64_t flags,
    uint32_t uid,
    uint32_t gid,
    uint64_t pid);

/* Tells the driver that its file id was closed: a notice that wants no reply. Its first argument is id. Answers 0, and makes
 * READABLE. Refused: QUEUE_FULL. */
TilgurapStepWords tilgurap_close(uint64_t words[TILGURAP_STATE_WORDS], uint64_t id);

/* Tells the driver that a descriptor of its file id was detached: a notice that wants no reply. Its first argument is id.
 * Answers 0, and makes READABLE. Refused: QUEUE_FULL. */
TilgurapStepWords tilgurap_detach(uint64_t words[TILGURAP_STATE_WORDS], uint64_t id, uint64_t pid);

/* A caller was woken (killed 0) or killed (killed 1). A reply that is there is handed over, and the slot is vacant. Else:
 *   killed 0: BLOCKED. The first such wake queues a Cancel for the driver and makes READABLE, so wake a caller only for its
 *     reply, or to have its call given up. base and count are not used.
 *   killed 1: refused with EINTR. The call has returned; its slot is kept until the driver has replied, and then count pages
 *     from base on come back as UNMAP.
 * Refused also: OUT_OF_RULES for another killed than 0 and 1, EBADFD where no call waits under this tag, NOT_THIS_CALLERS,
 * QUEUE_FULL where there is no room for the Cancel. */
TilgurapWakeWords tilgurap_wake(
    uint64_t words[TILGURAP_STATE_WORDS],
    TilgurapTag tag,
    uint32_t caller,
    uint64_t killed,
    uint64_t base,
    uint64_t count);

/* THE DRIVER */

/* The driver reads: min(out_len, unread bytes) are stored, the answer says how many. Whole entries are removed; a part of one
 * comes again. WOULD_WAIT where the queue is empty; with TILGURAP_READ_NONBLOCK among the flags refused instead: EAGAIN, EINVAL
 * for an out_len of 1 to 63 (0 reads 0 bytes). */
TilgurapAnswerWords tilgurap_read(uint64_t words[TILGURAP_STATE_WORDS], uint8_t *out, size_t out_len, uint32_t flags);

/* The driver writes completion entries: whole ones in order; fewer than TILGURAP_CQE_BYTES bytes left over are not read. The
 * answer says how many bytes were taken: where it is less than the whole entries, the next one was refused and those behind it
 * were not looked at. Effects are stored in fx, for which TILGURAP_EFFECT_WORDS words are lent for each whole entry.
 * Refused: FEW_EFFECT_WORDS; and for its first entry's sake
 *   any: EINVAL for kind 6 or 7, or flags of an event or an obtain that do not exist;
 *   a reply with a descriptor: EINVAL for an empty handle; where its tag is refused after that, its handle is empty all the same;
 *   a reply: EBADFD where the slot is vacant or only given out; EINVAL where it has a reply already or is a map request's;
 *   an obtain: EINVAL where the slot is vacant, ENOENT where it does not wait or no description is listed.
 * An obtain into a handle that is in use, or over 63, is taken, and the description's hold is dropped, with no close. */
TilgurapCompleted tilgurap_write(
    uint64_t words[TILGURAP_STATE_WORDS],
    uint64_t *fx,
    size_t fx_len,
    const uint8_t *bytes,
    size_t bytes_len);

/* The driver gives a waiting call these descriptions, out of outside holds, in the place of those that it has. The metadata are
 * two words: 1 and the tag. Answers how many. Refused: OUT_OF_RULES and MANY_DESCRIPTIONS; EINVAL for other metadata or a
 * vacant tag and ENOENT where the call does not wait: these two have dropped the holds that it brought. */
TilgurapStepWords tilgurap_call_fdwrite(
    uint64_t words[TILGURAP_STATE_WORDS],
    const uint64_t *metadata,
    size_t metadata_len,
    const uint64_t *fds,
    size_t fds_len);

/* The driver takes a waiting call's descriptions, which become outside holds. The metadata are two words: 0 and the tag.
 * Answers how many. Refused: EINVAL for other metadata or a vacant tag, ENOENT where the call does not wait. */
TilgurapStepWords tilgurap_call_fdread(uint64_t words[TILGURAP_STATE_WORDS], const uint64_t *metadata, size_t metadata_len);

/* The driver supplies the page of a map request, which vacates its slot. Answers 0.
 * Refused: EINVAL for an offset or a base that is no multiple of TILGURAP_PAGE_BYTES, a count that is not 1, or a slot that is
 * no map request's; EBADFD for one that is only given out; ESRCH where the caller has ended, and the slot is vacated all the
 * same. */
TilgurapStepWords tilgurap_provide_mmap(
    uint64_t words[TILGURAP_STATE_WORDS],
    TilgurapTag tag,
    uint64_t offset,
    uint64_t base,
    uint64_t count);

/* READING A REPLY, by what was called. A refusal's value is an errno here. The holds of a reply's descriptions are the host's
 * from the wake on, whichever way it is read. */

/* Most calls: the word or the error; descriptions read as EIO. */
TilgurapAnswerWords tilgurap_into_regular(TilgurapReply reply, TilgurapList fds);

/* tilgurap_call_generic and tilgurap_translate_std_fs_call: the same, and the notice. */
TilgurapRegular tilgurap_read_call_generic(TilgurapReply reply, TilgurapList fds);

/* tilgurap_kfdwrite: the word or the error; descriptions read as EIO. */
TilgurapAnswerWords tilgurap_read_kfdwrite(TilgurapReply reply, TilgurapList fds);

/* tilgurap_kfdread: how many descriptions came, or the error; a word or one description alone reads as EIO. */
TilgurapAnswerWords tilgurap_read_kfdread(TilgurapReply reply, TilgurapList fds);

/* TILGURAP_OP_OPEN_AT: the error first, then EINVAL for unknown bits in extra0; many descriptions EIO. */
TilgurapOpenedWords tilgurap_kopenat(TilgurapReply reply, TilgurapList fds);

/* TILGURAP_OP_DUP: the same. */
TilgurapOpenedWords tilgurap_kdup(TilgurapReply reply, TilgurapList fds);

/* What a result word says: its low 32 bits, read as signed and negated, are an errno (refused) where they lie in
 * TILGURAP_ERRNO_FIRST to TILGURAP_ERRNO_LAST; else the whole word is a success (done). */
TilgurapAnswerWords tilgurap_demux(uint64_t word);

/* The result word of an error. */
uint64_t tilgurap_mux_error(int32_t error_number);

/* ENTRIES FROM AND TO BYTES, little-endian. Submission: opcode 0, flags 1, tag 4 to 7, arguments 8 to 55, caller 56 to 63.
 * Completion: flags 0, extra 1 to 3, tag 4 to 7, result 8 to 15. */

/* The entry at the start of the bytes; those that are missing read as 0. */
TilgurapSqe tilgurap_sqe(const uint8_t *bytes, size_t bytes_len);
TilgurapCqe tilgurap_cqe(const uint8_t *bytes, size_t bytes_len);

void tilgurap_sqe_bytes(TilgurapSqe e, uint8_t out[TILGURAP_SQE_BYTES]);
void tilgurap_cqe_bytes(TilgurapCqe e, uint8_t out[TILGURAP_CQE_BYTES]);

/* 0, or the refusal that the entry gets whatever its tag. */
uint64_t tilgurap_parse_cqe(TilgurapCqe e);

/* A RUN OVER BYTES: events written one after the other, on a fresh state of its own, for tools that replay. docs/FORMAT.md has
 * the bytes of both sides and the room that they need. The words in fx are lent to the writes among the events. */
TilgurapRunEnd tilgurap_run(
    uint64_t scheme,
    const uint8_t *events,
    size_t events_len,
    uint8_t *out,
    size_t out_len,
    uint64_t *fx,
    size_t fx_len);

#ifdef __cplusplus
}
#endif

#endif
