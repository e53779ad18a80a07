/* Prints every name of the header with its number, and the sentence of each refusal. */
#include <inttypes.h>
#include <stdio.h>

#include "spop.h"

#define SHOW(name) printf("%s %" PRIu64 "\n", #name, (uint64_t)SPOP_##name)
#define SHOW_REFUSAL(name) printf("%s %" PRIu64 " %s\n", #name, (uint64_t)SPOP_##name, spop_refusal_text(SPOP_##name))

int main(void)
{
    SHOW_REFUSAL(DONE);
    SHOW_REFUSAL(WAIT);
    SHOW_REFUSAL(OVERSIZE);
    SHOW_REFUSAL(TOO_SOON);
    SHOW_REFUSAL(UNKNOWN);
    SHOW_REFUSAL(ABORTED);
    SHOW_REFUSAL(AGENTS);
    SHOW_REFUSAL(TOO_LARGE);
    SHOW_REFUSAL(NO_TYPE);
    SHOW_REFUSAL(MET_TWICE);
    SHOW_REFUSAL(TABLE_FULL);
    SHOW_REFUSAL(NO_ROOM);
    SHOW_REFUSAL(OVER_LIMIT);
    SHOW_REFUSAL(SIZE_TOO_SMALL);
    SHOW_REFUSAL(NOT_WRITABLE);
    SHOW_REFUSAL(NOT_TEXT);
    SHOW_REFUSAL(OUTSIDE);
    SHOW_REFUSAL(TOO_MANY);
    SHOW_REFUSAL(UNKNOWN_ACTION);
    SHOW_REFUSAL(NOT_FITTING);
    printf("- 20 %s\n", spop_refusal_text(20));
    printf("- 21 %s\n", spop_refusal_text(21));
    printf("- 18446744073709551615 %s\n", spop_refusal_text(UINT64_MAX));
    SHOW(KIND_NULL);
    SHOW(KIND_BOOL);
    SHOW(KIND_I32);
    SHOW(KIND_U32);
    SHOW(KIND_I64);
    SHOW(KIND_U64);
    SHOW(KIND_IPV4);
    SHOW(KIND_IPV6);
    SHOW(KIND_STRING);
    SHOW(KIND_BINARY);
    SHOW(HAPROXY_HELLO);
    SHOW(HAPROXY_DISCONNECT);
    SHOW(NOTIFY);
    SHOW(AGENT_HELLO);
    SHOW(AGENT_DISCONNECT);
    SHOW(ACK);
    SHOW(FIN);
    SHOW(ABORT);
    SHOW(SET_VAR);
    SHOW(UNSET_VAR);
    SHOW(SCOPE_PROCESS);
    SHOW(SCOPE_SESSION);
    SHOW(SCOPE_TRANSACTION);
    SHOW(SCOPE_REQUEST);
    SHOW(SCOPE_RESPONSE);
    SHOW(MAX_FRAME);
    SHOW(AGREED_FRAME);
    SHOW(VALUE_WIDTH);
    SHOW(MESSAGE_WIDTH);
    SHOW(PAIR_WIDTH);
    SHOW(ACTION_WIDTH);
    SHOW(ROW_WIDTH);
    SHOW(VERSION_WIDTH);
    return 0;
}
