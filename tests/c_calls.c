/* Every exported function called from C, with numbers that are all different and wider than 32 bits where they may be, so that
 * an argument in the wrong place or cut off shows; and what include/tilgurap.h says of limits, refusals, kinds, effects and of
 * what an entry wants. Compiled and run by tests/c_host.sh. */
#include <stdio.h>
#include <string.h>

#include "tilgurap.h"

enum { SCHEME = 7, CALLER = 100, OTHER = 200 };
#define WIDE(n) (UINT64_C(0x123456789a000000) + (n))

static uint64_t words[TILGURAP_STATE_WORDS];
static const uint64_t none[1] = {0};
static int checked, wrong;

static void check_at(bool holds, const char *what, int line)
{
    checked++;
    if (!holds) {
        wrong++;
        printf("tests/c_calls.c, line %d: not so: %s\n", line, what);
    }
}
#define CHECK(condition) check_at(condition, #condition, __LINE__)

static void start(void)
{
    static const uint64_t no_entries[TILGURAP_QUEUE_WORDS];
    tilgurap_packed(tilgurap_fresh(SCHEME), no_entries, words);
}

static TilgurapTag tag_of(uint64_t number)
{
    TilgurapTag tag = {number};
    return tag;
}

static bool is(TilgurapAnswerWords answer, uint64_t kind, uint64_t value)
{
    return answer.kind == kind && answer.value == value;
}

static bool done(TilgurapAnswerWords answer, uint64_t value)
{
    return is(answer, TILGURAP_ANSWER_DONE, value);
}

static bool refused(TilgurapAnswerWords answer, uint64_t number)
{
    return is(answer, TILGURAP_ANSWER_REFUSED, number);
}

static bool is_effect(TilgurapEffect effect, uint64_t kind, uint64_t a, uint64_t b)
{
    return effect.kind == kind && effect.a == a && effect.b == b;
}

/* The step queued an entry: its value, and the effect that says so. */
static bool queued(TilgurapStepWords step, uint64_t value)
{
    return done(step.answer, value) && is_effect(step.effect, TILGURAP_EFFECT_READABLE, SCHEME, TILGURAP_EVENT_READ);
}

static TilgurapStepWords call(uint32_t caller, uint64_t opcode)
{
    TilgurapArgs args = {{WIDE(0), WIDE(1), WIDE(2), WIDE(3), WIDE(4), WIDE(5)}};
    return tilgurap_call(words, none, 0, caller, opcode, args, 11, 12, WIDE(13));
}

/* The next entry; opcode 0 where there is none. */
static TilgurapSqe next_entry(void)
{
    uint8_t bytes[TILGURAP_SQE_BYTES] = {0};
    (void)tilgurap_read(words, bytes, sizeof bytes, TILGURAP_READ_NONBLOCK);
    return tilgurap_sqe(bytes, sizeof bytes);
}

static bool has_args(TilgurapSqe e, uint64_t a, uint64_t b, uint64_t c, uint64_t d, uint64_t f, uint64_t g)
{
    return e.args[0] == a && e.args[1] == b && e.args[2] == c && e.args[3] == d && e.args[4] == f && e.args[5] == g;
}

static TilgurapEffect effects[TILGURAP_EFFECTS];

/* Writes one entry; its effects stand in `effects` then, with none behind them. */
static TilgurapAnswerWords complete(uint8_t kind, uint32_t tag, uint64_t result)
{
    TilgurapCqe entry = {kind, {0, 0, 0}, tag, result};
    uint8_t bytes[TILGURAP_CQE_BYTES];
    uint64_t fx[TILGURAP_EFFECT_WORDS] = {0};
    tilgurap_cqe_bytes(entry, bytes);
    TilgurapCompleted written = tilgurap_write(words, fx, TILGURAP_EFFECT_WORDS, bytes, sizeof bytes);
    memcpy(effects, fx, sizeof fx);
    CHECK(written.words % 3 == 0 && written.words <= TILGURAP_EFFECT_WORDS);
    CHECK(written.words == TILGURAP_EFFECT_WORDS || effects[written.words / 3].kind == TILGURAP_EFFECT_NONE);
    return written.answer;
}

static TilgurapWakeWords wake(uint64_t tag, uint32_t caller)
{
    return tilgurap_wake(words, tag_of(tag), caller, 0, 0, 0);
}

static bool replied(TilgurapWakeWords woken, uint8_t kind, uint64_t word)
{
    return is(woken.answer, TILGURAP_ANSWER_REPLIED, 0) && woken.reply.kind == kind && woken.reply.word == word;
}

static TilgurapState plain(void)
{
    static uint64_t queue[TILGURAP_QUEUE_WORDS];
    return tilgurap_plain(words, queue);
}

/* A state by value, there and back, with every field of a slot set. */
static void states(void)
{
    static uint64_t queue[TILGURAP_QUEUE_WORDS], back[TILGURAP_QUEUE_WORDS];
    for (size_t i = 0; i < TILGURAP_QUEUE_WORDS; i++) {
        queue[i] = WIDE(i);
    }
    TilgurapState s = tilgurap_fresh(WIDE(7));
    CHECK(s.driver.scheme == WIDE(7) && s.table.slots[0].state == TILGURAP_SLOT_VACANT && s.table.next[0] == 1);
    TilgurapList list = {{1, 2, 3, 4, 5, 6, 7, 8, 9, 10, 11, 12, 13, 14, 15, 16}, TILGURAP_LIST};
    TilgurapReply reply = {TILGURAP_REPLY_MANY, 200, true, WIDE(3)};
    TilgurapSlot slot = {TILGURAP_SLOT_RESPONDED, 0xfedcba98, true, false, true, {WIDE(1), WIDE(2)}, reply, list};
    s.table.slots[63] = slot;
    s.table.head = 5;
    s.table.next[63] = 9;
    s.table.holds.holds[63] = 21;
    s.table.holds.outside[63] = 22;
    s.driver.handles.at[63] = 23;
    s.driver.queue.first = 24;
    s.driver.queue.len = 25;
    tilgurap_packed(s, queue, words);
    TilgurapState t = tilgurap_plain(words, back);
    TilgurapSlot got = t.table.slots[63];
    CHECK(memcmp(queue, back, sizeof queue) == 0);
    CHECK(got.state == slot.state && got.caller == slot.caller && got.canceling && !got.ended && got.returned);
    CHECK(got.span.base == WIDE(1) && got.span.count == WIDE(2));
    CHECK(got.reply.kind == TILGURAP_REPLY_MANY && got.reply.extra0 == 200 && got.reply.notice && got.reply.word == WIDE(3));
    CHECK(got.fds.len == TILGURAP_LIST && memcmp(got.fds.at, list.at, sizeof list.at) == 0);
    CHECK(t.driver.scheme == WIDE(7) && t.driver.handles.at[63] == 23 && t.driver.queue.first == 24 && t.driver.queue.len == 25);
    CHECK(t.table.head == 5 && t.table.next[63] == 9 && t.table.holds.holds[63] == 21 && t.table.holds.outside[63] == 22);

    uint64_t status[TILGURAP_STATUS_WORDS];
    tilgurap_status(words, status);
    CHECK(status[4] == UINT64_C(1) << 63 && status[5] == 1 && status[0] + status[1] + status[2] + status[3] == 0);
    CHECK(status[6] + status[7] + status[8] + status[9] == 0);
    s.table.slots[63].state = TILGURAP_SLOT_WAITING;
    s.table.slots[62].state = TILGURAP_SLOT_WAITING;
    s.table.slots[61].state = TILGURAP_SLOT_WAITING;
    s.table.slots[61].ended = true;
    s.table.slots[60].state = TILGURAP_SLOT_FMAP;
    s.table.slots[60].ended = true;
    tilgurap_packed(s, queue, words);
    tilgurap_status(words, status);
    CHECK(status[2] == UINT64_C(1) << 62 && status[3] == 1 && status[8] == UINT64_C(5) << 61 && status[9] == 2);
    CHECK(status[0] + status[4] == 0 && status[6] == UINT64_C(1) << 60 && status[7] == 1);
}

/* What each way to ask puts into the driver's entry, and what that wants. */
static void entries(void)
{
    uint64_t who = 11 + (UINT64_C(12) << 32);
    uint64_t files[2] = {WIDE(20), WIDE(21)}, metadata[3] = {3, WIDE(31), WIDE(32)};
    TilgurapArgs args = {{WIDE(0), WIDE(1), WIDE(2), WIDE(3), WIDE(4), WIDE(5)}};
    start();
    CHECK(queued(call(CALLER, TILGURAP_OP_WRITE), 0));
    TilgurapSqe e = next_entry();
    CHECK(e.opcode == TILGURAP_OP_WRITE && e.sqe_flags == 0 && e.tag == 0 && e.caller == WIDE(13));
    CHECK(has_args(e, WIDE(0), WIDE(1), WIDE(2), WIDE(3), WIDE(4), who));

    CHECK(done(tilgurap_next_id(words, CALLER).answer, 1));
    CHECK(queued(tilgurap_submit(words, none, 0, tag_of(1), CALLER, TILGURAP_OP_READ, TILGURAP_SQE_ONEWAY, args, WIDE(14)), 1));
    e = next_entry();
    CHECK(e.opcode == TILGURAP_OP_READ && e.sqe_flags == TILGURAP_SQE_ONEWAY && e.tag == 1 && e.caller == WIDE(14));
    CHECK(has_args(e, WIDE(0), WIDE(1), WIDE(2), WIDE(3), WIDE(4), WIDE(5)));

    CHECK(queued(tilgurap_call_generic(words, files, 1, metadata, 3, CALLER, WIDE(15), WIDE(16), WIDE(17)), 2));
    e = next_entry();
    CHECK(e.opcode == TILGURAP_OP_CALL && e.sqe_flags == 0 && e.tag == 2 && e.caller == WIDE(15));
    CHECK(has_args(e, WIDE(20), WIDE(16), WIDE(17), 3, WIDE(31), WIDE(32)));

    CHECK(queued(tilgurap_translate_std_fs_call(words, files, 2, metadata, 3, CALLER, WIDE(15), WIDE(16), WIDE(17)), 3));
    e = next_entry();
    CHECK(e.opcode == TILGURAP_OP_STD_FS_CALL && e.sqe_flags == TILGURAP_SQE_MULTIPLE_IDS && e.tag == 3);
    CHECK(has_args(e, WIDE(20), WIDE(16), WIDE(17), 3, WIDE(31), WIDE(21)));

    CHECK(queued(tilgurap_request_fmap(words, CALLER, WIDE(1), WIDE(2), WIDE(3), 11, 12, WIDE(13)), 4));
    e = next_entry();
    CHECK(e.opcode == TILGURAP_OP_REQUEST_MMAP && e.tag == 4 && e.caller == WIDE(13));
    CHECK(has_args(e, WIDE(1), WIDE(3), WIDE(2), 0, 0, who));
    CHECK(tilgurap_wants(e.opcode) == TILGURAP_WANTS_SUPPLY);
    CHECK(refused(complete(TILGURAP_CQE_REGULAR, 4, 0), TILGURAP_REFUSAL_EINVAL));
    CHECK(refused(tilgurap_provide_mmap(words, tag_of(4), 0, 1, 1).answer, TILGURAP_REFUSAL_EINVAL));
    CHECK(refused(tilgurap_provide_mmap(words, tag_of(4), 1, 0, 1).answer, TILGURAP_REFUSAL_EINVAL));
    CHECK(done(tilgurap_provide_mmap(words, tag_of(4), 0, TILGURAP_PAGE_BYTES, 1).answer, 0));

    TilgurapStepWords closed = tilgurap_close(words, WIDE(1));
    CHECK(done(closed.answer, 0));
    CHECK(is_effect(closed.effect, TILGURAP_EFFECT_READABLE, SCHEME, TILGURAP_EVENT_READ | TILGURAP_EVENT_HUP));
    e = next_entry();
    CHECK(e.opcode == TILGURAP_OP_CLOSE_MSG && e.sqe_flags == 0 && e.tag == 0 && e.caller == 0 && e.args[0] == WIDE(1));
    CHECK(tilgurap_wants(e.opcode) == TILGURAP_WANTS_NOTHING);

    CHECK(queued(tilgurap_detach(words, WIDE(1), WIDE(2)), 0));
    e = next_entry();
    CHECK(e.opcode == TILGURAP_OP_DETACH && e.sqe_flags == 0 && e.tag == 0 && e.caller == WIDE(2) && e.args[0] == WIDE(1));
    CHECK(tilgurap_wants(e.opcode) == TILGURAP_WANTS_NOTHING);

    TilgurapWakeWords woken = wake(1, CALLER);
    CHECK(is(woken.answer, TILGURAP_ANSWER_BLOCKED, 0));
    CHECK(is_effect(woken.effect, TILGURAP_EFFECT_READABLE, SCHEME, TILGURAP_EVENT_READ));
    e = next_entry();
    CHECK(e.opcode == TILGURAP_OP_CANCEL && e.sqe_flags == TILGURAP_SQE_ONEWAY && e.tag == 1);
    CHECK(tilgurap_wants(e.opcode) == TILGURAP_WANTS_NOTHING);
    CHECK(wake(1, CALLER).effect.kind == TILGURAP_EFFECT_NONE);
    CHECK(done(complete(TILGURAP_CQE_REGULAR, 1, tilgurap_mux_error(TILGURAP_ERRNO_ECANCELED)), TILGURAP_CQE_BYTES));
    CHECK(replied(wake(1, CALLER), TILGURAP_REPLY_ERROR, TILGURAP_ERRNO_EINTR));

    /* every other opcode is a call's */
    for (unsigned opcode = 0; opcode <= UINT8_MAX; opcode++) {
        start();
        bool known = opcode >= TILGURAP_OP_CLOSE && opcode <= TILGURAP_OP_DETACH;
        TilgurapAnswerWords answer = call(CALLER, opcode).answer;
        CHECK(known ? done(answer, 0) : refused(answer, TILGURAP_REFUSAL_OUT_OF_RULES));
        bool own = opcode == TILGURAP_OP_REQUEST_MMAP || opcode == TILGURAP_OP_CANCEL || opcode == TILGURAP_OP_CLOSE_MSG ||
                   opcode == TILGURAP_OP_DETACH;
        CHECK((tilgurap_wants((uint8_t)opcode) == TILGURAP_WANTS_REPLY) == !own);
    }
}

/* Replies of each kind and the ways to read them; effects. */
static void replies(void)
{
    start();
    CHECK(done(tilgurap_open(words, 63).answer, 0) && done(tilgurap_copy(words, 63).answer, 0));
    CHECK(done(tilgurap_put(words, 63, 62).answer, 0) && plain().driver.handles.at[62] == 64);
    CHECK(plain().table.holds.holds[63] == 2 && plain().table.holds.outside[63] == 1);

    CHECK(queued(call(CALLER, TILGURAP_OP_OPEN_AT), 0));
    CHECK(done(complete(TILGURAP_CQE_DESCRIPTOR, 0, 62), TILGURAP_CQE_BYTES));
    CHECK(is_effect(effects[0], TILGURAP_EFFECT_WAKE, CALLER, 0) && effects[1].kind == TILGURAP_EFFECT_NONE);
    TilgurapWakeWords woken = wake(0, CALLER);
    CHECK(replied(woken, TILGURAP_REPLY_DESCRIPTOR, 63) && plain().table.holds.outside[63] == 2);
    TilgurapOpenedWords opened = tilgurap_kopenat(woken.reply, woken.fds);
    CHECK(opened.kind == TILGURAP_OPENED_DESCRIPTION && opened.value == 63);
    CHECK(refused(tilgurap_into_regular(woken.reply, woken.fds), TILGURAP_ERRNO_EIO));

    /* a list goes along, another is given back */
    uint64_t list[2] = {63, 63}, give[2] = {1, 0}, take[2] = {0, 0};
    TilgurapArgs args = {{0, 0, 0, 0, 0, 0}};
    CHECK(queued(tilgurap_call(words, list, 2, CALLER, TILGURAP_OP_SENDFD, args, 0, 0, 0), 0));
    CHECK(done(tilgurap_call_fdread(words, take, 2).answer, 2) && plain().table.holds.outside[63] == 2);
    CHECK(done(tilgurap_call_fdwrite(words, give, 2, list, 2).answer, 2) && plain().table.holds.outside[63] == 0);
    CHECK(done(complete(TILGURAP_CQE_OBTAIN, 0, 5), TILGURAP_CQE_BYTES) && plain().driver.handles.at[5] == 64);
    CHECK(done(complete(TILGURAP_CQE_MANY, 0, 0), TILGURAP_CQE_BYTES));
    woken = wake(0, CALLER);
    CHECK(replied(woken, TILGURAP_REPLY_MANY, 0) && woken.fds.len == 1 && woken.fds.at[0] == 63);
    opened = tilgurap_kdup(woken.reply, woken.fds);
    CHECK(opened.kind == TILGURAP_OPENED_REFUSED && opened.value == TILGURAP_ERRNO_EIO);

    /* a list that nobody else holds is closed with the reply */
    CHECK(done(tilgurap_drop(words, 63).answer, 0) && done(tilgurap_open(words, 9).answer, 0));
    list[0] = 9;
    CHECK(queued(tilgurap_call(words, list, 1, CALLER, TILGURAP_OP_SENDFD, args, 0, 0, 0), 0));
    CHECK(refused(tilgurap_wake(words, tag_of(0), CALLER, 1, WIDE(1), WIDE(2)).answer, TILGURAP_REFUSAL_EINTR));
    CHECK(done(complete(TILGURAP_CQE_REGULAR, 0, 0), TILGURAP_CQE_BYTES));
    CHECK(is_effect(effects[0], TILGURAP_EFFECT_WAKE, CALLER, 0));
    CHECK(is_effect(effects[1], TILGURAP_EFFECT_UNMAP, WIDE(1), WIDE(2)));
    CHECK(is_effect(effects[2], TILGURAP_EFFECT_CLOSE, 9, 0) && effects[3].kind == TILGURAP_EFFECT_NONE);
    uint32_t all = TILGURAP_EVENT_READ | TILGURAP_EVENT_WRITE | TILGURAP_EVENT_HUP | TILGURAP_EVENT_ERR | TILGURAP_EVENT_NVAL;
    CHECK(done(complete(TILGURAP_CQE_EVENT, all, WIDE(3)), TILGURAP_CQE_BYTES));
    CHECK(is_effect(effects[0], TILGURAP_EFFECT_EVENT, WIDE(3), all));
    CHECK(refused(complete(TILGURAP_CQE_EVENT, all + 1, WIDE(3)), TILGURAP_REFUSAL_EINVAL));

    start();
    CHECK(queued(call(CALLER, TILGURAP_OP_CALL), 0));
    CHECK(done(complete(TILGURAP_CQE_NOTICE, 0, WIDE(1)), TILGURAP_CQE_BYTES));
    woken = wake(0, CALLER);
    CHECK(replied(woken, TILGURAP_REPLY_WORD, WIDE(1)) && woken.reply.notice);
    TilgurapRegular regular = tilgurap_read_call_generic(woken.reply, woken.fds);
    CHECK(done(regular.answer, WIDE(1)) && regular.notice);
    CHECK(done(tilgurap_into_regular(woken.reply, woken.fds), WIDE(1)));
    woken.reply.extra0 = TILGURAP_NEW_FD_POSITIONED;
    opened = tilgurap_kdup(woken.reply, woken.fds);
    CHECK(opened.kind == TILGURAP_OPENED_LOCAL && opened.value == WIDE(1) && opened.flags == TILGURAP_NEW_FD_POSITIONED);
    woken.reply.extra0 = TILGURAP_NEW_FD_POSITIONED + 1;
    opened = tilgurap_kopenat(woken.reply, woken.fds);
    CHECK(opened.kind == TILGURAP_OPENED_REFUSED && opened.value == TILGURAP_ERRNO_EINVAL);
}

static TilgurapStepWords send(const uint64_t *list, size_t count, size_t metadata_len, uint64_t flags)
{
    static const uint64_t metadata[2] = {WIDE(31), WIDE(32)};
    return tilgurap_kfdwrite(words, list, count, metadata, metadata_len, CALLER, WIDE(20), flags, 11, 12, WIDE(13));
}

static TilgurapStepWords ask(uint64_t len, size_t metadata_len, uint64_t flags)
{
    static const uint64_t metadata[3] = {WIDE(31), WIDE(32), WIDE(33)};
    return tilgurap_kfdread(words, metadata, metadata_len, CALLER, WIDE(20), len, flags, 11, 12, WIDE(13));
}

/* Descriptions sent with a call and asked for by one: what the driver is told, how a reply is read, whose its holds are. */
static void descriptions(void)
{
    uint64_t who = 11 + (UINT64_C(12) << 32), list[TILGURAP_LIST + 1], give[2] = {1, 0};
    start();
    for (size_t at = 0; at <= TILGURAP_LIST; at++) {
        list[at] = at;
    }
    for (size_t at = 0; at <= TILGURAP_LIST; at++) {
        CHECK(refused(send(list, TILGURAP_LIST + 1, 0, 0).answer, TILGURAP_REFUSAL_OUT_OF_RULES));
        CHECK(done(tilgurap_open(words, at).answer, 0));
    }
    CHECK(refused(send(list, TILGURAP_LIST + 1, 0, 0).answer, TILGURAP_REFUSAL_MANY_DESCRIPTIONS));

    CHECK(queued(send(list, TILGURAP_LIST, 2, TILGURAP_CALL_FD_EXCLUSIVE), 0));
    TilgurapSqe e = next_entry();
    CHECK(e.opcode == TILGURAP_OP_SENDFD && e.sqe_flags == 0 && e.tag == 0 && e.caller == WIDE(13));
    CHECK(has_args(e, WIDE(20), TILGURAP_SEND_FD_EXCLUSIVE, WIDE(31), TILGURAP_LIST, 0, who));
    TilgurapSlot slot = plain().table.slots[0];
    CHECK(slot.caller == CALLER && slot.fds.len == TILGURAP_LIST && slot.fds.at[TILGURAP_LIST - 1] == TILGURAP_LIST - 1);
    CHECK(plain().table.holds.outside[0] == 0 && plain().table.holds.outside[TILGURAP_LIST] == 1);
    CHECK(done(complete(TILGURAP_CQE_REGULAR, 0, WIDE(1)), TILGURAP_CQE_BYTES));
    TilgurapWakeWords woken = wake(0, CALLER);
    CHECK(replied(woken, TILGURAP_REPLY_WORD, WIDE(1)));
    CHECK(done(tilgurap_read_kfdwrite(woken.reply, woken.fds), WIDE(1)));
    CHECK(refused(tilgurap_read_kfdread(woken.reply, woken.fds), TILGURAP_ERRNO_EIO));

    /* every other flag changes nothing */
    start();
    CHECK(queued(send(none, 0, 0, ~UINT64_C(0) ^ TILGURAP_CALL_FD_EXCLUSIVE), 0));
    CHECK(has_args(next_entry(), WIDE(20), 0, 0, 0, 0, who));
    CHECK(queued(ask(24, 0, ~UINT64_C(0) ^ TILGURAP_CALL_FD_UPPER), 1));
    CHECK(has_args(next_entry(), WIDE(20), 0, 3, 0, 0, who));
    CHECK(queued(ask(0, 1, ~UINT64_C(0)), 2));
    CHECK(has_args(next_entry(), WIDE(20), TILGURAP_RECV_FD_UPPER_TBL, 0, WIDE(31), 0, who));
    CHECK(refused(ask(23, 0, 0).answer, TILGURAP_REFUSAL_EINVAL));

    /* one where many are asked for: handed over once, read as an error, dropped by the host */
    start();
    CHECK(done(tilgurap_open(words, 63).answer, 0) && done(tilgurap_put(words, 63, 62).answer, 0));
    CHECK(queued(ask(8, 3, TILGURAP_CALL_FD_UPPER), 0));
    e = next_entry();
    CHECK(e.opcode == TILGURAP_OP_RECVFD && e.sqe_flags == 0 && e.tag == 0 && e.caller == WIDE(13));
    CHECK(has_args(e, WIDE(20), TILGURAP_RECV_FD_UPPER_TBL, 1, WIDE(31), WIDE(32), who));
    CHECK(done(complete(TILGURAP_CQE_DESCRIPTOR, 0, 62), TILGURAP_CQE_BYTES));
    woken = wake(0, CALLER);
    CHECK(replied(woken, TILGURAP_REPLY_DESCRIPTOR, 63) && plain().table.holds.outside[63] == 1);
    CHECK(refused(wake(0, CALLER).answer, TILGURAP_REFUSAL_EBADFD));
    CHECK(refused(tilgurap_read_kfdread(woken.reply, woken.fds), TILGURAP_ERRNO_EIO));
    CHECK(refused(tilgurap_read_kfdwrite(woken.reply, woken.fds), TILGURAP_ERRNO_EIO));
    CHECK(done(tilgurap_drop(words, 63).answer, 0) && plain().table.holds.holds[63] == 0);

    /* many: their count */
    CHECK(done(tilgurap_open(words, 9).answer, 0) && done(tilgurap_copy(words, 9).answer, 0));
    list[0] = list[1] = 9;
    CHECK(queued(ask(8, 0, 0), 0) && done(tilgurap_call_fdwrite(words, give, 2, list, 2).answer, 2));
    CHECK(done(complete(TILGURAP_CQE_MANY, 0, 0), TILGURAP_CQE_BYTES));
    woken = wake(0, CALLER);
    CHECK(replied(woken, TILGURAP_REPLY_MANY, 0) && plain().table.holds.outside[9] == 2);
    CHECK(done(tilgurap_read_kfdread(woken.reply, woken.fds), 2));
    CHECK(refused(tilgurap_read_kfdwrite(woken.reply, woken.fds), TILGURAP_ERRNO_EIO));
    CHECK(queued(ask(8, 0, 0), 0) && done(complete(TILGURAP_CQE_MANY, 0, 0), TILGURAP_CQE_BYTES));
    woken = wake(0, CALLER);
    CHECK(done(tilgurap_read_kfdread(woken.reply, woken.fds), 0));

    /* an error passes */
    CHECK(queued(ask(8, 0, 0), 0));
    CHECK(done(complete(TILGURAP_CQE_REGULAR, 0, tilgurap_mux_error(TILGURAP_ERRNO_EINVAL)), TILGURAP_CQE_BYTES));
    woken = wake(0, CALLER);
    CHECK(refused(tilgurap_read_kfdread(woken.reply, woken.fds), TILGURAP_ERRNO_EINVAL));
    CHECK(refused(tilgurap_read_kfdwrite(woken.reply, woken.fds), TILGURAP_ERRNO_EINVAL));
}

/* Each refusal, and the last number that each limit lets through. */
static void refusals(void)
{
    uint64_t list[TILGURAP_LIST + 1], metadata[3] = {9, 0, 0}, take[2] = {0, 0};
    TilgurapArgs args = {{0, 0, 0, 0, 0, 0}};
    start();
    CHECK(refused(wake(TILGURAP_SLOTS, CALLER).answer, TILGURAP_REFUSAL_EBADFD));
    CHECK(refused(tilgurap_call_generic(words, none, 0, none, 0, CALLER, 0, 0, 0).answer, TILGURAP_REFUSAL_EINVAL));
    CHECK(refused(tilgurap_translate_std_fs_call(words, none, 1, metadata, 3, CALLER, 0, 0, 0).answer,
                  TILGURAP_REFUSAL_EOPNOTSUPP));
    CHECK(done(tilgurap_next_id(words, CALLER).answer, 0));
    CHECK(refused(tilgurap_call_fdread(words, take, 2).answer, TILGURAP_REFUSAL_ENOENT));
    CHECK(refused(tilgurap_submit(words, none, 0, tag_of(0), OTHER, TILGURAP_OP_READ, 0, args, 0).answer,
                  TILGURAP_REFUSAL_NOT_THIS_CALLERS));
    CHECK(done(tilgurap_request_fmap(words, OTHER, 0, 0, 0, 0, 0, 0).answer, 1) && done(tilgurap_ended(words, OTHER).answer, 0));
    CHECK(refused(tilgurap_provide_mmap(words, tag_of(1), 0, 0, 1).answer, TILGURAP_REFUSAL_ESRCH));

    start();
    for (uint64_t tag = 0; tag < TILGURAP_SLOTS; tag++) {
        CHECK(done(tilgurap_next_id(words, CALLER).answer, tag));
    }
    CHECK(refused(tilgurap_next_id(words, CALLER).answer, TILGURAP_REFUSAL_NO_VACANT_SLOT));
    CHECK(refused(send(none, 0, 0, 0).answer, TILGURAP_REFUSAL_NO_VACANT_SLOT));
    CHECK(refused(ask(24, 0, 0).answer, TILGURAP_REFUSAL_NO_VACANT_SLOT));
    CHECK(refused(ask(23, 0, 0).answer, TILGURAP_REFUSAL_EINVAL));
    for (int entry = 0; entry < TILGURAP_QUEUE_ENTRIES; entry++) {
        CHECK(done(tilgurap_close(words, 1).answer, 0));
    }
    CHECK(refused(tilgurap_close(words, 1).answer, TILGURAP_REFUSAL_QUEUE_FULL));

    start();
    for (int entry = 0; entry < TILGURAP_QUEUE_ENTRIES; entry++) {
        CHECK(done(tilgurap_close(words, 1).answer, 0));
    }
    CHECK(refused(send(none, 0, 0, 0).answer, TILGURAP_REFUSAL_QUEUE_FULL));
    CHECK(refused(ask(24, 0, 0).answer, TILGURAP_REFUSAL_QUEUE_FULL));
    CHECK(refused(ask(23, 0, 0).answer, TILGURAP_REFUSAL_EINVAL));

    start();
    CHECK(done(tilgurap_open(words, TILGURAP_DESCRIPTIONS - 1).answer, 0));
    CHECK(refused(tilgurap_open(words, TILGURAP_DESCRIPTIONS).answer, TILGURAP_REFUSAL_OUT_OF_RULES));
    int holds = 1;
    while (holds <= TILGURAP_HOLDS && done(tilgurap_copy(words, TILGURAP_DESCRIPTIONS - 1).answer, 0)) {
        holds++;
    }
    CHECK(holds == TILGURAP_HOLDS);
    CHECK(refused(tilgurap_copy(words, TILGURAP_DESCRIPTIONS - 1).answer, TILGURAP_REFUSAL_HOLDS_FULL));
    CHECK(done(tilgurap_put(words, TILGURAP_DESCRIPTIONS - 1, TILGURAP_HANDLES - 1).answer, 0));
    CHECK(refused(tilgurap_put(words, TILGURAP_DESCRIPTIONS - 1, TILGURAP_HANDLES).answer, TILGURAP_REFUSAL_OUT_OF_RULES));
    for (size_t at = 0; at <= TILGURAP_LIST; at++) {
        list[at] = TILGURAP_DESCRIPTIONS - 1;
    }
    CHECK(refused(tilgurap_call(words, list, TILGURAP_LIST + 1, CALLER, TILGURAP_OP_SENDFD, args, 0, 0, 0).answer,
                  TILGURAP_REFUSAL_MANY_DESCRIPTIONS));
    CHECK(done(tilgurap_call(words, list, TILGURAP_LIST, CALLER, TILGURAP_OP_SENDFD, args, 0, 0, 0).answer, 0));
}

/* Bytes: reads, writes, entries and a run. */
static void bytes(void)
{
    uint8_t in[2 * TILGURAP_SQE_BYTES], out[3 * TILGURAP_CQE_BYTES] = {0};
    uint64_t fx[3 * TILGURAP_EFFECT_WORDS];
    start();
    CHECK(is(tilgurap_read(words, in, sizeof in, 0), TILGURAP_ANSWER_WOULD_WAIT, 0));
    CHECK(refused(tilgurap_read(words, in, sizeof in, TILGURAP_READ_NONBLOCK), TILGURAP_REFUSAL_EAGAIN));
    CHECK(refused(tilgurap_read(words, in, TILGURAP_SQE_BYTES - 1, TILGURAP_READ_NONBLOCK), TILGURAP_REFUSAL_EINVAL));
    CHECK(queued(call(CALLER, TILGURAP_OP_DUP), 0) && queued(call(OTHER, TILGURAP_OP_DUP), 1));
    CHECK(done(tilgurap_read(words, in, 100, 0), 100) && next_entry().tag == 1);
    TilgurapSqe entry = tilgurap_sqe(in, sizeof in);
    uint8_t again[TILGURAP_SQE_BYTES];
    tilgurap_sqe_bytes(entry, again);
    CHECK(entry.opcode == TILGURAP_OP_DUP && memcmp(in, again, sizeof again) == 0);

    /* the second is refused and hides the third */
    uint32_t tags[3] = {0, 9, 1};
    for (size_t at = 0; at < 3; at++) {
        TilgurapCqe reply = {TILGURAP_CQE_REGULAR, {1, 2, 3}, tags[at], WIDE(at)};
        tilgurap_cqe_bytes(reply, out + at * TILGURAP_CQE_BYTES);
        TilgurapCqe back = tilgurap_cqe(out + at * TILGURAP_CQE_BYTES, TILGURAP_CQE_BYTES);
        CHECK(back.flags == TILGURAP_CQE_REGULAR && back.tag == tags[at] && back.result == WIDE(at));
        CHECK(back.extra_raw[0] == 1 && back.extra_raw[1] == 2 && back.extra_raw[2] == 3);
        CHECK(tilgurap_parse_cqe(back) == 0);
        back.flags = TILGURAP_CQE_NOTICE + 1;
        CHECK(tilgurap_parse_cqe(back) == TILGURAP_REFUSAL_EINVAL);
    }
    TilgurapCompleted written = tilgurap_write(words, fx, 3 * TILGURAP_EFFECT_WORDS - 1, out, sizeof out);
    CHECK(refused(written.answer, TILGURAP_REFUSAL_FEW_EFFECT_WORDS) && written.words == 0);
    written = tilgurap_write(words, fx, 3 * TILGURAP_EFFECT_WORDS, out, sizeof out);
    CHECK(done(written.answer, TILGURAP_CQE_BYTES) && written.words == 3 && fx[0] == TILGURAP_EFFECT_WAKE && fx[1] == CALLER);
    CHECK(wake(0, CALLER).reply.extra0 == 1 && is(wake(1, OTHER).answer, TILGURAP_ANSWER_BLOCKED, 0));

    /* the event `close`, 12, of docs/FORMAT.md: a head of 16 bytes and a word */
    static uint8_t told[1624 + 192];
    uint8_t events[24] = {12};
    TilgurapRunEnd ended = tilgurap_run(SCHEME, events, sizeof events, told, sizeof told, fx, 1);
    CHECK(ended.number == 0 && ended.place == sizeof events && ended.written > 1624 && ended.written <= sizeof told);
    CHECK(tilgurap_run(SCHEME, events, 23, told, sizeof told, fx, 1).number == TILGURAP_REFUSAL_OUT_OF_RULES);

    CHECK(done(tilgurap_demux(WIDE(1)), WIDE(1)));
    for (int32_t error = TILGURAP_ERRNO_FIRST - 1; error <= TILGURAP_ERRNO_LAST + 1; error++) {
        bool is_error = error >= TILGURAP_ERRNO_FIRST && error <= TILGURAP_ERRNO_LAST;
        CHECK(refused(tilgurap_demux(tilgurap_mux_error(error)), (uint64_t)error) == is_error);
    }
}

int main(void)
{
    CHECK(tilgurap_abi() == TILGURAP_ABI);
    states();
    entries();
    replies();
    descriptions();
    refusals();
    bytes();
    printf("%d checks from C, %d wrong\n", checked, wrong);
    return wrong != 0;
}
