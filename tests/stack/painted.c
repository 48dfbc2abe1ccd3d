#define _GNU_SOURCE
#include "painted.h"

#include <string.h>
#include <ucontext.h>

#define ROOM 1048576
#define PAINT 0x5C

static uint8_t stack[ROOM] __attribute__((aligned(4096)));
static uint8_t *top; /* the frame of the function that makes the call */
static ucontext_t outside, inside;
static void (*running)(struct call *);
static struct call *with;

static void start(void) {
    top = __builtin_frame_address(0);
    running(with);
}

void on_painted_stack(void (*run)(struct call *), struct call *call) {
    running = run;
    with = call;
    getcontext(&inside);
    inside.uc_stack.ss_sp = stack;
    inside.uc_stack.ss_size = ROOM;
    inside.uc_link = &outside;
    makecontext(&inside, start, 0);
    swapcontext(&outside, &inside);
}

void paint_stack(void) {
    memset(stack, PAINT, ROOM);
}

/* The bytes from that frame down to the deepest one touched since the stack was painted. */
size_t touched_stack(void) {
    const uint8_t *deepest = stack;
    while (deepest < top && *deepest == PAINT) {
        deepest++;
    }
    return (size_t)(top - deepest);
}

size_t stated_stack(void) {
    return VENTPEELER_STACK_BYTES;
}

static void run_nothing(struct call *call) {
    call->answer = 0;
}

static void run_tokenize(struct call *call) {
    call->answer = ventpeeler_tokenize(call->statement, call->statement_len, call->dialect, call->joins, call->named,
                                       call->lent, call->lent_len);
}

static void run_tighten(struct call *call) {
    call->answer = ventpeeler_tighten(call->statement, call->statement_len, call->dialect, call->joins, call->named,
                                      call->lent, call->lent_len);
}

void painted_nothing(struct call *call) {
    on_painted_stack(run_nothing, call);
}

void painted_tokenize(struct call *call) {
    on_painted_stack(run_tokenize, call);
}

void painted_tighten(struct call *call) {
    on_painted_stack(run_tighten, call);
}
