/* A push that reads nothing: it gets the record, counts a symbol and hands it back. What this takes
 * is what passing the record by value takes, to which any push adds its own work. In a file of its
 * own, so that the compiler makes a call of it. */
#include "baselines.h"

lernazhup_step handing_push(lernazhup_receiver receiver, const uint8_t *part, size_t part_len)
{
    lernazhup_step step;
    step.receiver = receiver;
    step.receiver.taken += part_len > 0;
    step.receiver.count += part[0];
    step.number = LERNAZHUP_MORE;
    return step;
}
