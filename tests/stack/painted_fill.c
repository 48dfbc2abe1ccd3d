#include "painted.h"

static void run_fill(struct call *call) {
    call->answer = ventpeeler_fill(call->statement, call->statement_len, call->dialect, call->joins, call->named, call->sheet,
                                   call->sheet_len, call->lent, call->lent_len);
}

void painted_fill(struct call *call) {
    on_painted_stack(run_fill, call);
}
