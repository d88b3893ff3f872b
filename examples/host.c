/* A small host in C: a scheduler and a driver on both ends of one layer. A dose is under way, with tag 0, when the gauge's file
 * is closed; the driver is told so by an entry that has tag 0 as well. Then a valve call comes, and the dose finishes.
 * Its status is 0 only if each call got its own reply. With -DANSWER_EVERYTHING the driver replies also to entries that want no
 * reply: the dose takes the closed file for its end, and the valve call gets the dose's reply.
 *
 *     cc -std=c11 -I include examples/host.c target/staticlib/libtilgurap.a -o host && ./host
 */
#include <inttypes.h>
#include <stdio.h>
#include <stdlib.h>

#include "tilgurap.h"

/* the driver's files */
enum { VALVE = 1, DOSER = 2, GAUGE = 3 };

/* A call as its caller sees it: what it asks for, and what it got. The driver replies with the value that it was asked for. */
struct call {
    const char *name;
    uint32_t caller;
    uint64_t file;
    uint64_t value;
    int replies;
    uint64_t got;
};

static struct call dose = {"dose", 100, DOSER, 20, 0, 0};
static struct call valve = {"valve", 200, VALVE, 1, 0, 0};

static uint64_t words[TILGURAP_STATE_WORDS];
static bool readable; /* the driver was told to look at its queue */

/* what the driver has taken and not replied to yet, by file */
static TilgurapSqe under_way[GAUGE + 1];

static _Noreturn void stop(const char *what, uint64_t number)
{
    printf("stopped: %s (%" PRIu64 ")\n", what, number);
    exit(2);
}

/* The value of an event that must not be refused. */
static uint64_t accepted(TilgurapAnswerWords answer, const char *what)
{
    if (answer.kind != TILGURAP_ANSWER_DONE) {
        stop(what, answer.value);
    }
    return answer.value;
}

/* A woken caller fetches its reply. */
static void fetch(uint32_t caller, uint64_t tag)
{
    struct call *call = caller == dose.caller ? &dose : &valve;
    TilgurapTag of = {tag};
    TilgurapWakeWords woken = tilgurap_wake(words, of, caller, 0, 0, 0);
    if (woken.answer.kind != TILGURAP_ANSWER_REPLIED) {
        stop("a caller was woken and has no reply", woken.answer.value);
    }
    call->got = accepted(tilgurap_into_regular(woken.reply, woken.fds), "the call failed");
    call->replies++;
    printf("scheduler: caller %" PRIu32 " (%s), tag %" PRIu64 ", reads %" PRIu64 "\n", caller, call->name, tag, call->got);
}

static void carry_out(TilgurapEffect effect)
{
    switch (effect.kind) {
    case TILGURAP_EFFECT_NONE:
        break;
    case TILGURAP_EFFECT_WAKE:
        fetch((uint32_t)effect.a, effect.b);
        break;
    case TILGURAP_EFFECT_READABLE:
        readable = true;
        break;
    default:
        /* nothing in this story lends pages, holds descriptions or sends events */
        stop("an effect that this host does not know", effect.kind);
    }
}

static void make_call(const struct call *call)
{
    const uint64_t none[1] = {0}; /* no descriptions go along; the pointer must not be null all the same */
    TilgurapArgs args = {{call->file, call->value, 0, 0, 0, 0}};
    TilgurapStepWords step = tilgurap_call(words, none, 0, call->caller, TILGURAP_OP_WRITE, args, 0, 0, call->caller);
    uint64_t tag = accepted(step.answer, "a call was refused");
    printf("scheduler: caller %" PRIu32 " (%s) calls: tag %" PRIu64 "\n", call->caller, call->name, tag);
    carry_out(step.effect);
}

/* The driver writes one reply. One by one, so that a refused entry hides no other. */
static void reply(uint32_t tag, uint64_t result)
{
    TilgurapCqe entry = {TILGURAP_CQE_REGULAR, {0, 0, 0}, tag, result};
    uint8_t bytes[TILGURAP_CQE_BYTES];
    uint64_t effects[TILGURAP_EFFECT_WORDS];
    tilgurap_cqe_bytes(entry, bytes);
    TilgurapCompleted done = tilgurap_write(words, effects, TILGURAP_EFFECT_WORDS, bytes, sizeof bytes);
    for (size_t at = 0; at < done.words; at += 3) {
        TilgurapEffect effect = {effects[at], effects[at + 1], effects[at + 2]};
        carry_out(effect);
    }
    if (done.answer.kind == TILGURAP_ANSWER_REFUSED) {
        printf("driver:    the reply to tag %" PRIu32 " is refused (%" PRIu64 ")\n", tag, done.answer.value);
    }
}

/* The driver takes what is queued. Doser and valve need their time: their replies come by finish. */
static void take_entries(void)
{
    uint8_t bytes[TILGURAP_SQE_BYTES];
    while (readable && tilgurap_read(words, bytes, sizeof bytes, TILGURAP_READ_NONBLOCK).kind == TILGURAP_ANSWER_DONE) {
        TilgurapSqe entry = tilgurap_sqe(bytes, sizeof bytes);
        switch (tilgurap_wants(entry.opcode)) {
        case TILGURAP_WANTS_REPLY:
            if (entry.args[0] > GAUGE) {
                stop("the driver has no such file", entry.args[0]);
            }
            printf("driver:    tag %" PRIu32 ": work on file %" PRIu64 " begins\n", entry.tag, entry.args[0]);
            under_way[entry.args[0]] = entry;
            break;
        case TILGURAP_WANTS_NOTHING:
            printf("driver:    a notice with tag %" PRIu32 ": file %" PRIu64 " is closed\n", entry.tag, entry.args[0]);
#ifdef ANSWER_EVERYTHING
            reply(entry.tag, 0);
#endif
            break;
        case TILGURAP_WANTS_SUPPLY:
            stop("nobody asks for a mapping here", entry.tag);
        }
    }
    readable = false;
}

static void finish(uint64_t file)
{
    TilgurapSqe entry = under_way[file];
    printf("driver:    tag %" PRIu32 ": work on file %" PRIu64 " is done\n", entry.tag, file);
    reply(entry.tag, entry.args[1]);
}

static bool has_its_own(const struct call *call)
{
    bool own = call->replies == 1 && call->got == call->value;
    printf("%s: %s\n", call->name, own ? "got its own reply" : "DID NOT GET ITS OWN REPLY");
    return own;
}

int main(void)
{
    static const uint64_t no_entries[TILGURAP_QUEUE_WORDS];
    if (tilgurap_abi() != TILGURAP_ABI) {
        stop("the library has another interface than the header", tilgurap_abi());
    }
    tilgurap_packed(tilgurap_fresh(7), no_entries, words);

    make_call(&dose);
    take_entries();

    TilgurapStepWords closed = tilgurap_close(words, GAUGE);
    accepted(closed.answer, "the close was refused");
    printf("scheduler: the gauge's file is closed\n");
    carry_out(closed.effect);
    take_entries();

    make_call(&valve);
    take_entries();

    finish(DOSER);
    finish(VALVE);
    bool dose_is_right = has_its_own(&dose);
    bool valve_is_right = has_its_own(&valve);
    return dose_is_right && valve_is_right ? EXIT_SUCCESS : EXIT_FAILURE;
}
