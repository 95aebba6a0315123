/*
 * Serves traps: the proved core decides on an action, and this file performs it. Actions whose only effect on other harts is by
 * requests are performed by the hart itself; the others need the monitor's lock, and are decided again with it.
 */
#include "board.h"

/* crates/pmpmon_monitor: writes only `harts` and `action`. `call` is a0 to a7. */
void pmpmon_decide(uint64_t world, uint64_t cause, const uint64_t *call, const struct caller *caller, const uint64_t *bank,
                   struct harts *harts, struct action *action);

/* The host's entry point on hart 0, as for OpenSBI's fw_jump: a0 is the hart, a1 the device tree. Other harts wait for its call. */
#define HOST_ENTRY 0x80200000ul
static uint64_t device_tree;

/* Initializes the registers of a hart that enters for the first time. */
static void begin(struct world *world)
{
    static uint8_t has_begun[MOST_HARTS];
    uint64_t hart = this_hart();
    if (has_begun[hart])
        return;
    has_begun[hart] = 1;
    world->caller = (struct caller){hart, READ(mvendorid), READ(marchid), READ(mimpid), 0, 0};
    check_entries();
    control_find();
    control_at_start();
}

#define SBI_ERR_FAILED (~0ul)

static __attribute__((noinline)) void interrupt_harts(uint64_t set)
{
    for (uint64_t hart = 0; set; hart++, set >>= 1)
        if (set & 1)
            interrupt_supervisor(hart);
}

/* The call fails if a hart does not fence within ten seconds. */
static void fence(struct action *action, uint32_t kind)
{
    if (!fence_harts(action->subject, kind))
        action->error = SBI_ERR_FAILED;
}

/* Performs the action for a trap of the host. A call returns the error in a0 and the value in a1, and the host continues after it. */
static inline void act(struct world *world)
{
    struct action *action = &world->action;
    switch (action->kind) {
    case GO_ON:
        take_requests(world);
        load_changes(world);
        return;
    case TICK:
        host_timer_came();
        return;
    case TO_HANDLER:
        control_to_handler(world);
        return;
    case SET_TIMER:
        host_timer_at(action->subject);
        break;
    case INTERRUPT_HARTS:
        interrupt_harts(action->subject);
        break;
    case FENCE_INSTRUCTIONS:
        fence(action, FENCE_I);
        break;
    case FENCE_TRANSLATIONS:
        fence(action, FENCE_VMA);
        break;
    case PUT_BYTE:
        put_char((char)action->subject);
    }
    world->registers->x[10] = action->error;
    world->registers->x[11] = action->value;
    world->registers->pc += 4;
}

/* Starts a hart that waits in park. The host's list may have changed meanwhile, so it is loaded first. */
static void start_hart(const struct action *action)
{
    struct world *world = &worlds[action->subject];
    registers_begin(world->registers, action->address, action->subject);
    world->registers->x[11] = action->opaque;
    world->is_stale = 1;
    unpark(action->subject);
}

static void act_with_lock(struct world *world)
{
    switch (world->action.kind) {
    case GO_ON:
        return;
    case START_HART:
        start_hart(&world->action);
        break;
    case STOP_HART: /* it does not come back: serve_with_lock parks it */
        control_at_start();
        return;
    case SHUT_DOWN:
        end_board(0);
    case FAIL:
        end_board(1);
    case REBOOT:
        begin_anew();
    }
    act(world);
}

static void decide(struct world *world, struct harts *states)
{
    pmpmon_decide(world->number, world->cause, world->registers->x + 10, &world->caller, host_bank.cfg, states, &world->action);
}

/* Another hart may start or stop one meanwhile, so the states are a copy, and actions that change them are decided again with the lock. */
int serve_alone(struct world *world)
{
    struct harts seen = seen_harts();
    decide(world, &seen);
    if (world->action.kind < START_HART) {
        act(world);
        return 1;
    }
    if (world->action.kind == ENCLAVE_TICK)
        host_timer_came();
    return 0;
}

/* Checks that the stack has not grown into its last 8 KiB. Other memory of the monitor is below it. */
static void check_stack(void)
{
    extern const uint64_t stack_guard;
    if (stack_guard != STACK_MARK)
        end_because("the stack is full on hart ", this_hart());
}

static inline struct world *run(struct world *world)
{
    load_changes(world);
    return run_world(world);
}

/* Performs actions that do not concern the monitor. A hart that is not started was parked, so its last decision is obsolete, or enters
   for the first time: pending requests are cleared before it starts. */
static __attribute__((noinline)) struct world *serve_with_lock(struct world *world)
{
    if (!is_started(this_hart())) {
        begin(world);
        take_requests(world);
        world->cause = INTERRUPT | 3;
    }
    struct harts states = seen_harts();
    decide(world, &states);
    put_harts(&states);
    act_with_lock(world);
    return is_started(this_hart()) ? run(world) : park(world);
}

/* Returns what a host learns besides the cause: the address of an access outside the private pages of the enclave. A fault inside them
   would reveal one of the enclave's addresses, and an illegal instruction its code. */
enum { FETCH_FAULT = 1, LOAD_FAULT = 5, STORE_FAULT = 7 };
static uint64_t stop_value(const struct world *world)
{
    uint64_t cause = world->cause;
    int is_access = cause == FETCH_FAULT || cause == LOAD_FAULT || cause == STORE_FAULT;
    return is_access && !is_private_page(world->number, world->value / PAGE) ? world->value : 0;
}

/* A decision that a trap concerns the monitor stays valid with the lock, because it does not depend on the states of harts. */
int64_t next_trap(struct trap_frame *frame)
{
    struct world *world;
    check_stack();
    world = run(&worlds[this_hart()]);
    while (world->action.kind < MONITOR)
        world = serve_with_lock(world);
    if (world->action.kind == MONITOR)
        return put_trap(world, TAG_CALL, frame);
    world->caller.stop_cause = world->cause;
    world->caller.stop_value = stop_value(world);
    return put_trap(world, world->action.kind == ENCLAVE_CALL ? TAG_CALL : TAG_STOP, frame);
}

void answered(const struct answer_frame *answer)
{
    static int is_booted;
    struct world *host = &worlds[answer->hart];
    if (is_booted)
        return;
    is_booted = 1;
    begin(host);
    registers_begin(host->registers, HOST_ENTRY, answer->hart);
    host->registers->x[11] = device_tree;
    tell_start(HOST_ENTRY);
    start_others();
}

_Noreturn void ended(const struct end_frame *end)
{
    forget();
    put("monitor: ended, reason ");
    put_number((int64_t)end->reason);
    put(", ");
    put_number((int64_t)end->detail);
    put("\n");
    end_board(1);
}

void boot(uint64_t hart, uint64_t tree)
{
    (void)hart;
    device_tree = tree;
    forget_private();
    find_board(tree);
    harts.count = hart_count();
}
