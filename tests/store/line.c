/*
 * The line of those that have waited long for the turn, without a store. The calls that try are of
 * this file, and answer as a test wants; so are the clock and the sleeps, which stand before
 * glibc's own: time goes on by sleeps alone, and at each of them a test may do what another thread
 * would.
 */
#include "../../bindings/waiting.c"
#include "../../bindings/line.c"
#include "tests.h"
#include "tries.h"

#define PASSES 4
#define BUSY_FOR_EVER UINT64_MAX
#define SECOND 1000000 /* in microseconds, as all times here */

static mst_pass passes[PASSES];
static uint64_t clock_now, looked; /* the time, and how often it was asked for */
static uint64_t busy_until;        /* until when tries are told that the turn is taken */
static int32_t told_then;          /* what they are told later */
static unsigned tries, sleeps, yields;
static uint64_t tried_at; /* the time of the last try */
static uint64_t slept;    /* how long the last sleep was */
static void (*at_sleep)(void);

int clock_gettime(clockid_t unused, struct timespec *time) {
    (void)unused;
    looked++;
    time->tv_sec = (time_t)(clock_now / SECOND);
    time->tv_nsec = (long)(clock_now % SECOND) * 1000;
    return 0;
}

int nanosleep(const struct timespec *length, struct timespec *unused) {
    (void)unused;
    sleeps++;
    slept = (uint64_t)length->tv_nsec / 1000;
    clock_now += slept;
    if (at_sleep)
        at_sleep();
    return 0;
}

int sched_yield(void) {
    yields++;
    return 0;
}

static int32_t try_once(void) {
    tries++;
    tried_at = clock_now;
    return busy_until == BUSY_FOR_EVER || clock_now < busy_until ? MST_BUSY : told_then;
}

/* ---- the calls by a pass, each for no longer than a time, or without end */

static int32_t puts_one(mst_pass *pass, uint64_t longest) {
    return longest == WITHOUT_END ? mst_put(pass, TEXT("a"), TEXT("1"), NULL, 0)
        : mst_put_within(pass, TEXT("a"), TEXT("1"), NULL, 0, longest);
}

static int32_t removes(mst_pass *pass, uint64_t longest) {
    return longest == WITHOUT_END ? mst_remove(pass, TEXT("a"), NULL, 0)
        : mst_remove_within(pass, TEXT("a"), NULL, 0, longest);
}

static int32_t applies(mst_pass *pass, uint64_t longest) {
    size_t place;
    return longest == WITHOUT_END ? mst_apply(pass, NULL, 0, &place)
        : mst_apply_within(pass, NULL, 0, &place, longest);
}

static int32_t migrates(mst_pass *pass, uint64_t longest) {
    return longest == WITHOUT_END ? mst_migrate(pass, 2) : mst_migrate_within(pass, 2, longest);
}

typedef int32_t call_by(mst_pass *pass, uint64_t longest);

/* From here on the turn is taken for so long, and then a try is told this. */
static void begin(uint64_t busy_for, int32_t then) {
    busy_until = busy_for == BUSY_FOR_EVER ? BUSY_FOR_EVER : clock_now + busy_for;
    told_then = then;
    tries = sleeps = yields = 0;
    looked = 0;
    at_sleep = NULL;
}

static unsigned standing(void) {
    return atomic_load(&((struct place *)passes[0].place)->line->standing);
}

/* Another pass has waited for so long, and was seen just now. */
static void other_stands(int number, uint64_t for_so_long) {
    line_stand(passes[number].place, clock_now - for_so_long, clock_now);
}

static void other_leaves(int number) {
    line_leave(passes[number].place);
}

/* ---- what is wanted of each call */

/* Nobody has the turn, and nobody stands in line: the call tries, and does nothing else. */
static void goes_at_once(call_by *call, mst_pass *pass) {
    begin(0, MST_OK);
    EXPECT(call(pass, WITHOUT_END) == MST_OK && call(pass, 0) == MST_OK);
    EXPECT(call(pass, 1000) == MST_OK);
    EXPECT(tries == 3 && sleeps == 0 && yields == 0 && looked == 0);
}

/* It ends once its time is over, and tries once more then. */
static void is_busy_in_the_end(call_by *call, mst_pass *pass, uint64_t longest) {
    uint64_t began = clock_now;
    begin(BUSY_FOR_EVER, MST_OK);
    EXPECT(call(pass, longest) == MST_BUSY);
    EXPECT(clock_now - began >= longest && clock_now - began <= longest + 1);
    EXPECT(tried_at == clock_now && (pass->place == NULL || standing() == 0));
}

static void tries_once(call_by *call, mst_pass *pass) {
    begin(BUSY_FOR_EVER, MST_OK);
    EXPECT(call(pass, 0) == MST_BUSY && tries == 1 && sleeps == 0 && yields == 0);
}

/* What a try is told after a wait is what the call returns, whatever it is. */
static void returns_what_it_is_told(call_by *call, mst_pass *pass, uint64_t busy_for) {
    static const int32_t numbers[] = {
        MST_OK, 2, MST_ABSENT, MST_SHORT_ROOM, MST_MEMORY, MST_VERSIONS_SPENT, MST_NO_FREE_ROWS,
    };
    for (size_t i = 0; i < sizeof numbers / sizeof *numbers; i++) {
        uint64_t began = clock_now;
        begin(busy_for, numbers[i]);
        EXPECT(call(pass, i % 2 ? WITHOUT_END : 2 * busy_for + 10000) == numbers[i]);
        /* soon after the turn is free */
        EXPECT(clock_now - began >= busy_for && clock_now - began < busy_for + LONGEST);
        EXPECT(yields == YIELDS && (pass->place == NULL || standing() == 0));
    }
}

static unsigned stood; /* how many passes stood in line at the last sleep */

static void look_who_stands(void) {
    stood = standing();
}

/* It stands in line once it has waited long, and no longer than it waits. */
static void stands_in_line(call_by *call, mst_pass *pass) {
    begin(LONG - 1, MST_OK);
    at_sleep = look_who_stands;
    EXPECT(call(pass, WITHOUT_END) == MST_OK && stood == 0);
    begin(LONG + LONGEST + 100, MST_OK);
    at_sleep = look_who_stands;
    EXPECT(call(pass, WITHOUT_END) == MST_OK && stood == 1 && standing() == 0);
}

static void by_itself(call_by *call) {
    goes_at_once(call, &passes[0]);
    tries_once(call, &passes[0]);
    is_busy_in_the_end(call, &passes[0], 1);
    is_busy_in_the_end(call, &passes[0], 999);
    is_busy_in_the_end(call, &passes[0], 3 * LONG);
    returns_what_it_is_told(call, &passes[0], 500);
    returns_what_it_is_told(call, &passes[0], 10 * LONG);
    returns_what_it_is_told(call, &passes[0], 60 * SECOND);
    stands_in_line(call, &passes[0]);
}

/* A hand that has no place, since the proved call opened it, waits too. */
static void without_a_line(call_by *call) {
    mst_pass pass = MST_PASS_CLOSED;
    goes_at_once(call, &pass);
    tries_once(call, &pass);
    is_busy_in_the_end(call, &pass, 3 * LONG);
    returns_what_it_is_told(call, &pass, 10 * LONG);
}

static void leaves_at_the_tenth(void) {
    EXPECT(tries == 0 || sleeps > 10);
    if (sleeps == 10)
        other_leaves(1);
}

/* The turn is free, but another pass has waited long: the call leaves it to that one. */
static void gives_way(call_by *call) {
    begin(0, MST_OK);
    other_stands(1, LONG);
    at_sleep = leaves_at_the_tenth;
    EXPECT(call(&passes[0], WITHOUT_END) == MST_OK && sleeps == 10 && tries == 1);
    /* the turn is taken then: it goes on to sleep */
    begin(LONG, MST_OK);
    other_stands(1, LONG);
    at_sleep = leaves_at_the_tenth;
    EXPECT(call(&passes[0], WITHOUT_END) == MST_OK && sleeps > 10 && tries > 1 && yields == 0);
    /* but one that is not to wait does not */
    other_stands(1, LONG);
    begin(0, MST_OK);
    EXPECT(call(&passes[0], 0) == MST_OK && looked == 0 && tries == 1);
    other_leaves(1);
}

/* The pass is seen to wait. */
static void is_seen(int number) {
    atomic_store(&((struct place *)passes[number].place)->seen, clock_now);
}

/* While they stand the call sleeps for longer and longer, and in line for a short time when one of
 * them goes. */
static void first_leaves_then_second(void) {
    EXPECT(tries == 0 && standing() >= 2);
    is_seen(1);
    is_seen(2);
    EXPECT(sleeps != 1 || (slept > AWAY && slept < LONGEST));
    EXPECT(sleeps != 100 || slept == LONGEST);
    if (sleeps == 100)
        other_leaves(1);
    EXPECT(sleeps != 101 || slept < 2 * IN_LINE);
    if (sleeps == 110)
        other_leaves(2);
    other_stands(3, 0); /* that one comes later, and nobody waits for it */
}

/* By then the call has waited long too, and stands behind the second. */
static void gives_way_to_each(call_by *call) {
    begin(0, MST_OK);
    other_stands(1, LONG + 1);
    other_stands(2, LONG);
    at_sleep = first_leaves_then_second;
    EXPECT(call(&passes[0], WITHOUT_END) == MST_OK && sleeps == 110 && tries == 1);
    EXPECT(standing() == 1);
    other_leaves(3);
}

static void comes_and_stays(void) {
    if (sleeps == 60)
        other_stands(1, 1);
    is_seen(1);
}

/* One that has waited longer tries on, whoever stands behind it. */
static void goes_before_later_ones(call_by *call) {
    begin(10 * LONG, MST_OK);
    at_sleep = comes_and_stays;
    EXPECT(call(&passes[0], WITHOUT_END) == MST_OK && tries > 100 && standing() == 1);
    other_leaves(1);
}

/* One that is dead holds a call up once, and for a moment. */
static void passes_a_dead_one(call_by *call) {
    uint64_t began = clock_now;
    begin(0, MST_OK);
    other_stands(1, LONG);
    EXPECT(call(&passes[0], WITHOUT_END) == MST_OK && tries == 1 && standing() == 0);
    EXPECT(clock_now - began > GONE && clock_now - began <= GONE + LONGEST + 1);
    began = clock_now;
    EXPECT(call(&passes[2], WITHOUT_END) == MST_OK && clock_now == began);
}

static void lives(void) {
    is_seen(1);
    stood = standing();
}

/* One that lives holds a call up for as long as that may wait, and the call stands behind it. Then
 * it tries once. */
static void waits_for_a_living_one(call_by *call) {
    uint64_t began = clock_now;
    begin(0, MST_OK);
    other_stands(1, LONG);
    at_sleep = lives;
    EXPECT(call(&passes[0], SECOND) == MST_OK && tries == 1 && clock_now - began == SECOND);
    EXPECT(stood == 2 && standing() == 1);
    begin(BUSY_FOR_EVER, MST_OK);
    at_sleep = lives;
    EXPECT(call(&passes[0], SECOND) == MST_BUSY && tries == 1);
    EXPECT(clock_now - began == 2 * SECOND && standing() == 1);
    other_leaves(1);
}

/* What a call has left that was cut off in the line, as by the end of its thread, the next call by
 * this pass takes away. */
static void clears_its_own_place(call_by *call) {
    begin(0, MST_OK);
    other_stands(0, LONG);
    EXPECT(call(&passes[0], WITHOUT_END) == MST_OK && sleeps == 0 && standing() == 0);
    other_stands(0, LONG);
    begin(2 * LONG, MST_OK);
    EXPECT(call(&passes[0], WITHOUT_END) == MST_OK && standing() == 0);
}

static void take_it_out(void) {
    stood = standing() > stood ? standing() : stood;
    if (sleeps % 100 == 0)
        other_leaves(0);
}

/* One that was taken out while it lives stands there again by its next try, and is counted once. */
static void stands_there_again(call_by *call) {
    begin(100 * LONG, MST_OK);
    stood = 0;
    at_sleep = take_it_out;
    EXPECT(call(&passes[0], WITHOUT_END) == MST_OK && stood == 1 && standing() == 0);
}

/* Each pass goes with its place, from wherever its hand has been moved to. */
static void closes(void) {
    mst_pass moved = passes[1];
    other_stands(0, LONG);
    other_stands(1, LONG);
    EXPECT(standing() == 2);
    line_close(&moved);
    EXPECT(moved.place == NULL && standing() == 1);
    line_close(&moved);
    struct line *line = ((struct place *)passes[0].place)->line;
    line_close(&passes[0]);
    EXPECT(atomic_load(&line->standing) == 0 && atomic_load(&line->passes) == PASSES - 2);
    line_close(&passes[2]);
    line_close(&passes[3]);
}

/* A snapshot waits as long as a block is being published, in no line, and for nothing else. */
static void snapshots(void) {
    static const int32_t others[] = {MST_OK, MST_CLOSED, MST_WRONG_STATE};
    mst_handle reader = MST_HANDLE_CLOSED;
    for (size_t at = 0; at < sizeof others / sizeof *others; at++) {
        begin(0, others[at]);
        EXPECT(mst_sharded_snapshot(&reader) == others[at]);
        EXPECT(tries == 1 && sleeps == 0 && yields == 0 && looked == 0);
        begin(LONG, others[at]);
        EXPECT(mst_sharded_snapshot(&reader) == others[at] && tries > 2 && sleeps > 0);
    }
    EXPECT(standing() == 0);
}

int main(void) {
    static call_by *const calls[] = {puts_one, removes, applies, migrates};
    clock_now = SECOND;
    EXPECT(line_open(passes, PASSES));
    for (size_t i = 0; i < sizeof calls / sizeof *calls; i++) {
        by_itself(calls[i]);
        without_a_line(calls[i]);
        gives_way(calls[i]);
        gives_way_to_each(calls[i]);
        goes_before_later_ones(calls[i]);
        passes_a_dead_one(calls[i]);
        waits_for_a_living_one(calls[i]);
        clears_its_own_place(calls[i]);
        stands_there_again(calls[i]);
    }
    snapshots();
    closes();
    return ended("line");
}
