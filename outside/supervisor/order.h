/* Decides which call goes next if calls have an order: of those that wait, the call of the thread that was made first, once every thread of the run
   is at rest. */
#ifndef ORDER_H
#define ORDER_H

#include <stdbool.h>
#include <stddef.h>
#include <stdint.h>

struct call;

enum order { AS_THEY_COME, SETTLED, ASKED }; /* ASKED: order::next is a point */
void set_order(enum order order);
bool is_ordered(void);

/* Whether a call may go on now. Otherwise it waits for its turn, and is served again then. */
bool may_go(struct call *call);

/* Whether every thread of the run rests, except for those that never do. `waits` says whether a thread has a call that waits here. A thread that
   doesn't rest for two seconds isn't waited for any more; forget_unsettled says that nothing waits for rest now. Only for a call one that computes
   for long is waited for, and how long threads of a process waited so is counted. */
enum patience { FOR_CALL, FOR_PROCESS, FOR_THREAD };
bool is_settled(bool (*waits)(int thread), enum patience patience);
void forget_unsettled(void);

/* Whether threads that wait for one another are kept until their turn. */
bool keeps_waits(void);

/* In how many nanoseconds all threads should be looked at again, if no call comes before. */
uint64_t time_to_next_look(void);

/* Whether every thread rests at this moment. */
bool all_at_rest(bool (*waits)(int thread));

/* The place of the call that goes next among these. */
size_t next_of(struct call *const *calls, size_t count);

#endif
