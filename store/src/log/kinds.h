/* Which kinds of calls there are for a store. Made from include/relkvanu.h by bindings/generate: change the header, and run that. */
#ifndef RKS_KINDS_H
#define RKS_KINDS_H

#include "../../../include/relkvanu.h"

/* Whether a call has a moment. */
static inline bool rks_has_moment(uint32_t kind) {
    switch (kind) {
    case RELKVANU_CALL_TICK:
    case RELKVANU_CALL_SAVEPOINT:
    case RELKVANU_CALL_ACK:
    case RELKVANU_CALL_DECLINE:
    case RELKVANU_CALL_RESTORE:
    case RELKVANU_CALL_CANCEL:
    case RELKVANU_CALL_TRIGGER:
    case RELKVANU_CALL_CONFIGURE:
    case RELKVANU_CALL_ADVANCE: return true;
    default: return false;
    }
}

/* Whether a store makes it. The others are reads. */
static inline bool rks_is_made(uint32_t kind) {
    switch (kind) {
    case RELKVANU_CALL_TICK:
    case RELKVANU_CALL_SAVEPOINT:
    case RELKVANU_CALL_ACK:
    case RELKVANU_CALL_DECLINE:
    case RELKVANU_CALL_DISPOSE:
    case RELKVANU_CALL_RESTORE:
    case RELKVANU_CALL_CANCEL:
    case RELKVANU_CALL_TAKE:
    case RELKVANU_CALL_DELETED:
    case RELKVANU_CALL_UNDELETED:
    case RELKVANU_CALL_FENCE:
    case RELKVANU_CALL_RESERVE:
    case RELKVANU_CALL_FORFEIT:
    case RELKVANU_CALL_TRIGGER:
    case RELKVANU_CALL_CONFIGURE:
    case RELKVANU_CALL_ADVANCE: return true;
    default: return false;
    }
}

#endif
